//! A second implementation of SImp, after the scope and the paper, that says why it refuses.
//!
//! Values, types, expressions and commands are trees, sets of principals are tables of truth values,
//! and a run is a sequence of the transitions of figure 3. Nothing here is made for speed.

pub mod answer;
pub mod calls;
pub mod evaluate;
pub mod flow;
pub mod groups;
pub mod label;
pub mod machine;
pub mod memory;
pub mod memory_text;
pub mod principals;
pub mod reason;
pub mod round;
pub mod round_text;
pub mod script;
pub mod script_text;
pub mod shape;
pub mod sheet;
pub mod sheet_text;
pub mod text;
pub mod trust;
pub mod types;
pub mod value;
pub mod view;

pub use answer::{Groups, Outcome, Refusal, Round, Trust, DONE, MOST_GROUPS, SCRIPTS};
pub use calls::{check, run, try_check, try_run, try_view, view};
pub use groups::{groups, smallest_groups, try_groups};
pub use reason::Reason;
pub use round::{round, try_round};
pub use round_text::parts;
pub use trust::{trust, try_trust};
