//! The call that says of a script whether it is trust-keeping: whether each of its unpacks has an
//! operand whose least label is at or below the wanted label, writers as well as readers.

use crate::answer::Trust;
use crate::calls::{accepted_script, read_sheet};
use crate::flow::{self, Endorsement};
use crate::reason::Reason;

/// Whether a script is accepted on a sheet, and then whether it is trust-keeping.
pub fn trust(sheet: &[u8], script: &[u8]) -> Trust {
    match try_trust(sheet, script) {
        Ok(endorsements) => Trust::accepted(endorsements.is_empty()),
        Err(reason) => Trust::refused(reason.refusal()),
    }
}

/// The same, with the unpacks by which an accepted script isn't trust-keeping, in the order of their
/// lines, or why it isn't accepted.
pub fn try_trust(sheet: &[u8], script: &[u8]) -> Result<Vec<Endorsement>, Reason> {
    let sheet = read_sheet(sheet)?;
    let script = accepted_script(&sheet, script)?;
    flow::endorsements(&sheet, &script).map_err(Reason::Labels)
}

#[cfg(test)]
mod tests {
    use super::{trust, try_trust};
    use crate::answer::Trust;
    use crate::calls::check;

    /// Everyone writes label 0, and owner 0 lets itself alone write label 1. Location 0 holds a
    /// package and location 1 an unpacked integer under the first, 2 and 3 the like under the second.
    const SHEET: &str = "P 2,T 0 1,L,L,O 0 0003 0000,X 2 0,X 5 0,X 2 1,X 5 1,";

    fn trusted(sheet: &str, script: &str) -> (Trust, Vec<usize>) {
        let [sheet, script] = [sheet, script].map(|t| t.replace(' ', "\t").replace(',', "\n"));
        let (sheet, script) = (sheet.as_bytes(), script.as_bytes());
        let answer = trust(sheet, script);
        assert_eq!(answer.answer, check(sheet, script));
        let endorsements = try_trust(sheet, script).unwrap_or_default();
        (answer, endorsements.iter().map(|endorsement| endorsement.line).collect())
    }

    #[test]
    fn an_accepted_script_is_keeping_where_no_unpack_endorses() {
        let keeping = Trust { answer: 0, keeping: 1 };
        for script in ["s,", "= 1,u 5 0,x 0,", "= 1,u 5 0,x 2,", "= 3,u 5 1,x 2,"] {
            assert_eq!(trusted(SHEET, script), (keeping, vec![]), "{script}");
        }
        let other = Trust { answer: 0, keeping: 0 };
        assert_eq!(trusted(SHEET, "= 3,u 5 1,x 0,"), (other, vec![2]));
        assert_eq!(trusted(SHEET, ";,= 3,u 5 1,x 0,= 1,u 5 1,x 0,"), (other, vec![3, 6]));
    }

    #[test]
    fn a_refused_script_is_not_keeping() {
        let refused = |answer| (Trust { answer, keeping: 0 }, vec![]);
        let again = SHEET.replace("L,L,", "L,L,L,");
        assert_eq!(trusted("", "s,"), refused(1));
        assert_eq!(trusted(&again, "s,"), refused(2));
        assert_eq!(trusted(SHEET, "= 3,u 5 2,x 2,"), refused(4));
        assert_eq!(trusted(SHEET, "= 2,u 5 1,x 2,"), refused(5));
        assert_eq!(trusted(SHEET, "= 3,u 5 0,x 2,"), refused(6));
    }
}
