//! The second implementation of the rules, written from their text and from
//! the readings of its open points, and from nothing of the proved crates.
//! Every call is a plain function over lent slices. A refusal writes nothing,
//! and places past the need keep their contents.

pub mod graph;
pub mod leaves;
pub mod listing;
pub mod reach;
pub mod refusal;
pub mod replace;
pub mod run;
pub mod text;
pub mod window;

pub use graph::{evaluate, Graph, Lit, Var};
pub use leaves::{pick_leaves, Leaves};
pub use listing::{list, ListRefusal, Record};
pub use refusal::Refusal;
pub use replace::{apply, Proposal};
pub use run::run;
pub use text::{read, write};
pub use window::table;
