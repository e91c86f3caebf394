//! The view, on every implementation.

use crate::common::{memory, sheet, start, text};
use crate::fenced::Fenced;
use compare::implementation::ALL;

fn view(sheet: &[u8], memory: &[u32], group: u16) -> Vec<(u8, Vec<u32>)> {
    let shown = |i: &compare::implementation::Implementation| {
        let mut view = vec![0xdead_beef; memory.len()];
        ((i.view)(sheet, memory, group, &mut view), view)
    };
    ALL.iter().map(shown).collect()
}

fn check(sheet: &[u8], before: &[&[u32]], group: u16, after: &[&[u32]]) {
    for (i, shown) in ALL.iter().zip(view(sheet, &memory(before), group)) {
        assert_eq!(shown, (0, memory(after)), "{}: {before:?} {group}", i.name);
    }
}

#[test]
fn locations_that_a_group_cannot_read_are_zeros() {
    let packed: &[&[u32]] = &[&[1, 5], &[1, 62], &[3, 5, 2, 1, 62], &[4, 2, 1]];
    check(&sheet(), packed, 0b001, packed);
    check(&sheet(), packed, 0b010, &[&[1, 5], &[], &[3, 5, 2], &[]]);
    check(&sheet(), packed, 0b000, &[&[], &[], &[], &[]]);
}

#[test]
fn hidden_contents_become_one_zero_word() {
    let sheet = text(&["P 2", "L", "L", "O 0 0000 0000", "X 4 0", "X 2 0"]);
    let nested: &[&[u32]] = &[&[3, 5, 0, 4, 5, 1, 3, 1, 9], &[5, 1, 5, 0, 1, 9]];
    check(&sheet, nested, 0b01, nested);
    check(&sheet, nested, 0b10, &[&[3, 5, 0, 4, 5, 1], &[5, 1]]);
    let full: &[&[u32]] = &[&[4, 2, 3], &[5, 1, 3, 3, 3, 3, 3, 3, 3, 3, 3, 3, 3, 3, 1, 9]];
    check(&sheet, full, 0b10, &[&[4, 2, 3], &[5, 1]]);
    check(&sheet, full, 0b11, full);
}

#[test]
fn a_view_leaves_the_memory_it_is_lent() {
    for i in ALL {
        let lent = Fenced::new(&start());
        let mut view = Fenced::blank(64);
        let answer = (i.view)(&sheet(), lent.words(), 2, view.words_mut());
        assert_eq!(answer, 0, "{}", i.name);
        assert_eq!(view.words(), memory(&[&[1, 5], &[], &[4, 2, 1], &[]]), "{}", i.name);
        assert_eq!(lent.words(), start(), "{}", i.name);
        assert!(lent.is_intact() && view.is_intact(), "{}", i.name);
    }
}
