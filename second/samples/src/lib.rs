//! Samples to compare with: random graphs, texts, leaf sets, proposals and
//! assignments, and the edges of every limit. Equal seeds give equal samples.

pub mod assignments;
pub mod damage;
pub mod edges;
pub mod graphs;
pub mod near;
pub mod odd_graphs;
pub mod odd_texts;
pub mod proposals;
pub mod random;
pub mod texts;
pub mod windows;

pub use random::Random;
