//! The sorts of rows that each call must have. Samples are drawn until enough
//! of a sort are there, so that no rare one is left to luck.

mod graphs;
mod replacements;
mod texts;
mod windows;

use super::calls::{Call, Told};
use super::Row;
use samples::Random;

/// How many rows of a sort are wanted, its name, and what makes a row one.
pub type Sort<C> = (usize, &'static str, fn(&C, &Told) -> bool);

/// A sort that is not met by then cannot be had from its samples any more.
const MOST_TRIES: usize = 100_000;

/// The rows of all calls.
pub fn rows(random: &mut Random) -> Vec<Row> {
    let mut rows = Vec::new();
    add(&texts::READ, random, &mut rows);
    add(&texts::WRITE, random, &mut rows);
    add(&graphs::EVALUATE, random, &mut rows);
    add(&windows::PICK, random, &mut rows);
    add(&windows::TABLE, random, &mut rows);
    add(&replacements::LIST, random, &mut rows);
    add(&replacements::APPLY, random, &mut rows);
    add(&graphs::RUN, random, &mut rows);
    rows
}

/// Adds the rows of one call's sorts.
pub fn add<C: Call>(sorts: &[Sort<C>], random: &mut Random, rows: &mut Vec<Row>) {
    for sort in sorts {
        for _ in 0..sort.0 {
            let row = draw(sort, random, rows);
            rows.push(row);
        }
    }
}

/// Draws one row of a sort. None comes twice, since it would show nothing new.
fn draw<C: Call>(&(_, name, is_met): &Sort<C>, random: &mut Random, rows: &[Row]) -> Row {
    for _ in 0..MOST_TRIES {
        let call = C::draw(random);
        let told = call.told();
        if is_met(&call, &told) {
            let row = call.row(told);
            if !rows.contains(&row) {
                return row;
            }
        }
    }
    panic!("{}: no sample is of the sort: {name}", C::NAME);
}
