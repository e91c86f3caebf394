//! The smallest groups that read a label: the library's list held against the reference's.

use super::{answered, disagreement, Calls, Disagreement, Groups};
use reference::principals::Principals;
use reference::{Reason, MOST_GROUPS};

/// Stands in each place before the call: the group of 16 principals, which few lists hold.
const UNTOUCHED: u16 = u16::MAX;

impl Calls {
    /// The groups in the order in which they are handed out, or why none are. There are places for
    /// the most that a label can have, so the call is never refused for its places (12), and what
    /// stands after the count is compared too.
    pub fn groups(
        &self,
        sheet: &[u8],
        label: u32,
    ) -> Result<Result<Vec<Principals>, Reason>, Disagreement> {
        let (mut places, mut second) = (vec![UNTOUCHED; MOST_GROUPS], vec![UNTOUCHED; MOST_GROUPS]);
        let listed = (self.library.groups)(sheet, label, &mut places);
        let told = (self.reference.groups)(sheet, label, &mut second);
        let found = match &told {
            Ok(count) => Groups { answer: 0, count: *count },
            Err(reason) => Groups { answer: reason.number(), count: 0 },
        };
        if listed != found {
            return Err(disagreement(listed.answer, ended(listed), ended(found)));
        }
        same_places(listed, &places, &second)?;
        let groups = |count| places.into_iter().take(count as usize).map(Principals::from_bits);
        Ok(told.map(|count| groups(count).collect()))
    }
}

/// That both leave the same in every place, those after the count too.
fn same_places(listed: Groups, library: &[u16], reference: &[u16]) -> Result<(), Disagreement> {
    let mut pairs = library.iter().zip(reference);
    let Some(place) = pairs.position(|(mine, theirs)| mine != theirs) else {
        return Ok(());
    };
    let at =
        |places: &[u16]| format!("{}, place {place} is `{:04x}`", ended(listed), places[place]);
    Err(disagreement(listed.answer, at(library), at(reference)))
}

fn ended(listed: Groups) -> String {
    format!("{}, count {}", answered(listed.answer), listed.count)
}
