//! The rules, by hand-made examples.

mod bench;
mod buffers;
mod given;
mod graph_order;
mod limits;
mod mistakes;
mod reading;
mod refusals;
mod text_order;
mod windows;
