//! Evaluation of expressions, after figure 2.

use crate::memory::Memory;
use crate::principals::Principals;
use crate::script::{Expression, Term};
use crate::sheet::{LabelId, Sheet};
use crate::types::TypeId;
use crate::value::{Error, Value, MOST_WORDS};

/// What stays the same during a run.
pub struct Context<'a> {
    pub sheet: &'a Sheet,
    pub authority: Principals,
}

/// The expression, or a part of one, in this line has a value of more than 16 words: so many.
#[derive(Clone, Copy, Debug, PartialEq, Eq)]
pub struct ValueTooLong {
    pub line: usize,
    pub words: usize,
}

/// The value of a well-typed expression whose bound values have been put in.
pub fn evaluate(context: &Context, memory: &Memory, e: &Expression) -> Result<Value, ValueTooLong> {
    let of = |operand: &Expression| evaluate(context, memory, operand);
    let boxed = |operand: &Expression| of(operand).map(Box::new);
    let value = match &e.term {
        Term::Integer(n) => Value::Integer(*n),
        Term::Location(location) => memory[*location].clone(),
        Term::Value(value) => value.clone(),
        Term::Plus(e1, e2) => plus(of(e1)?, of(e2)?),
        Term::Left(_, e) => Value::Left(boxed(e)?),
        Term::Right(_, e) => Value::Right(boxed(e)?),
        Term::Pack(label, e) => pack(context, *label, of(e)?),
        Term::Unpack(ty, label, e) => unpack(context, *ty, *label, of(e)?),
        Term::Pair(_, e1, e2) => Value::Pair(boxed(e1)?, boxed(e2)?),
        Term::First(e) => parts(of(e)?).0,
        Term::Second(e) => parts(of(e)?).1,
        Term::Bound(_) => unreachable!("bound values have been put in"),
    };
    let words = value.length();
    if words <= MOST_WORDS {
        Ok(value)
    } else {
        Err(ValueTooLong { line: e.line, words })
    }
}

/// EE-PLUS, modulo 2^32.
fn plus(v1: Value, v2: Value) -> Value {
    match (v1, v2) {
        (Value::Integer(n1), Value::Integer(n2)) => Value::Integer(n1.wrapping_add(n2)),
        _ => unreachable!("operands of a sum are integers"),
    }
}

/// The first and the second part of a pair.
fn parts(pair: Value) -> (Value, Value) {
    match pair {
        Value::Pair(first, second) => (*first, *second),
        _ => unreachable!("only a pair has a first and a second part"),
    }
}

fn failed(error: Error) -> Value {
    Value::Right(Box::new(Value::Error(error)))
}

/// EE-PACK-OK and EE-PACK-FAIL.
fn pack(context: &Context, label: LabelId, content: Value) -> Value {
    if context.sheet.labels[label].written_by(context.authority) {
        Value::Left(Box::new(Value::Package(label, Box::new(content))))
    } else {
        failed(Error::InsufficientAuth)
    }
}

/// EE-UNPACK-OK and the three ways to fail, in their order.
fn unpack(context: &Context, ty: TypeId, label: LabelId, package: Value) -> Value {
    let Value::Package(package_label, content) = package else {
        unreachable!("the operand of an unpack is a package");
    };
    let labels = &context.sheet.labels;
    let (wanted, _) = context.sheet.parts(ty).expect("the type of an unpack is a sum");
    if !context.sheet.reads(context.authority, label) {
        failed(Error::InsufficientAuth)
    } else if !labels[package_label].at_or_below(&labels[label]) {
        failed(Error::IllegalFlow)
    } else if !content.has_type(context.sheet, wanted) {
        failed(Error::TypeMismatch)
    } else {
        Value::Left(content)
    }
}

#[cfg(test)]
mod tests {
    use super::{pack, unpack, Context};
    use crate::principals::Principals;
    use crate::sheet_text;
    use crate::value::Value;

    /// Principal 2 reads and writes for owner 0, and principal 3 for owner 1; type 5 is int+error.
    fn of_the_two(rule: &str) -> Vec<u8> {
        format!("P\t4\n{rule}T\t0\t1\nL\nO\t0\t0004\t0004\nO\t1\t0008\t0008\n").into()
    }

    #[test]
    fn the_rule_of_reading_is_for_unpack_and_not_for_pack() {
        let packed = Value::Package(0, Box::new(Value::Integer(9)));
        for (rule, unpacked) in [("", [3, 1, 9]), ("R\t1\n", [4, 2, 1])] {
            let sheet = sheet_text::parse(&of_the_two(rule)).expect("a sheet");
            let context = Context { sheet: &sheet, authority: Principals::from_bits(0b1100) };
            assert_eq!(unpack(&context, 5, 0, packed.clone()).words(), unpacked, "{rule}");
            let written = pack(&context, 0, Value::Integer(9));
            assert_eq!(written, Value::Left(Box::new(packed.clone())), "{rule}");
        }
    }
}
