//! The model on random samples, against slow and plain restatements.

mod calls;
mod leaf_rule;
mod lists;
mod naive;
mod near;
mod refusing;
mod roots;
mod runs;
mod sample_graphs;
mod tables;
mod texts;
