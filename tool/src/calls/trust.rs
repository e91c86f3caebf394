//! Whether a script is accepted and trust-keeping: the library's verdict held against the
//! reference's.

use super::{answered, disagreement, Calls, Disagreement, Trust};
use reference::flow::Endorsement;
use reference::round_text::parts;
use reference::Reason;

/// What each says of a script where they disagree.
#[derive(Clone, Copy, Debug, PartialEq, Eq)]
pub struct Differing {
    pub library: Trust,
    pub reference: Trust,
}

impl Differing {
    pub fn disagreement(&self) -> Disagreement {
        disagreement(self.library.answer, judged(self.library), judged(self.reference))
    }

    /// The same of the script in a place of a round, which people count from 1.
    fn in_place(&self, place: usize) -> Disagreement {
        let [library, reference] = [self.library, self.reference]
            .map(|trust| format!("script {}: {}", place + 1, judged(trust)));
        disagreement(self.library.answer, library, reference)
    }
}

impl Calls {
    /// The unpacks by which an accepted script isn't trust-keeping, in the order of their lines, or
    /// why it is refused.
    pub fn trust(
        &self,
        sheet: &[u8],
        script: &[u8],
    ) -> Result<Result<Vec<Endorsement>, Reason>, Differing> {
        let library = (self.library.trust)(sheet, script);
        let told = (self.reference.trust)(sheet, script);
        let reference = match &told {
            Ok(unpacks) => Trust { answer: 0, keeping: unpacks.is_empty().into() },
            Err(reason) => Trust { answer: reason.number(), keeping: 0 },
        };
        if library == reference {
            Ok(told)
        } else {
            Err(Differing { library, reference })
        }
    }

    /// The same of each script of a round that is accepted. One that is refused by itself disagrees
    /// with that.
    pub fn trusts(
        &self,
        sheet: &[u8],
        scripts: &[u8],
    ) -> Result<Vec<Vec<Endorsement>>, Disagreement> {
        let each = parts(scripts).into_iter().enumerate().map(|(place, part)| {
            let told = self.trust(sheet, part.text).map_err(|found| found.in_place(place))?;
            told.map_err(|reason| {
                let alone = format!("script {} alone: {}", place + 1, answered(reason.number()));
                disagreement(0, answered(0), alone)
            })
        });
        each.collect()
    }
}

fn judged(trust: Trust) -> String {
    format!("{}, keeping {}", answered(trust.answer), trust.keeping)
}
