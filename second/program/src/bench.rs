//! Times of the proved calls against this program's, as ratios of one run.
//! Both take turns, and the best turn of each counts. Each call must be
//! accepted, and both sides must leave the same.

mod sides;

use sides::{Given, Lent};
use std::io::{self, Write};
use std::time::{Duration, Instant};

const TURNS: usize = 40;

/// What is timed: its name, how often it is done in a turn, and how each side
/// does it, the proved one first.
type Row = (&'static str, u32, Work, Work);
type Work = fn(&mut Lent, &Given);

const ROWS: [Row; 8] = [
    ("read", 50, Lent::read_proved, Lent::read_second),
    ("write", 50, Lent::write_proved, Lent::write_second),
    ("read and write", 50, both_proved, both_second),
    ("evaluate", 50, Lent::evaluate_proved, Lent::evaluate_second),
    (
        "leaf rule, gates in use",
        1,
        Lent::pick_proved,
        Lent::pick_second,
    ),
    (
        "table, gates in use",
        1,
        Lent::table_proved,
        Lent::table_second,
    ),
    ("apply", 1, Lent::apply_proved, Lent::apply_second),
    (
        "apply, refused for no gain",
        1,
        Lent::refuse_proved,
        Lent::refuse_second,
    ),
];

fn both_proved(lent: &mut Lent, given: &Given) {
    lent.read_proved(given);
    lent.write_proved(given);
}

fn both_second(lent: &mut Lent, given: &Given) {
    lent.read_second(given);
    lent.write_second(given);
}

pub fn bench(out: &mut dyn Write) -> io::Result<()> {
    let given = Given::new();
    writeln!(out, "{}", given.title())?;
    let mut lent = Lent::new(&given);
    let mut other = Lent::new(&given);
    for (name, repeats, proved, second) in ROWS {
        let one = || proved(&mut lent, &given);
        let (proved, second) = best(repeats, one, || second(&mut other, &given));
        assert!(lent == other, "{name}: the sides leave different things");
        let ratio = proved.as_secs_f64() / second.as_secs_f64();
        writeln!(
            out,
            "{name}: proved {proved:?}, second {second:?}, ratio {ratio:.2}"
        )?;
    }
    Ok(())
}

/// The best time of one call of each.
fn best(repeats: u32, mut one: impl FnMut(), mut other: impl FnMut()) -> (Duration, Duration) {
    let mut best = (Duration::MAX, Duration::MAX);
    for _ in 0..TURNS {
        best.0 = best.0.min(timed(repeats, &mut one));
        best.1 = best.1.min(timed(repeats, &mut other));
    }
    best
}

fn timed(repeats: u32, work: &mut impl FnMut()) -> Duration {
    let start = Instant::now();
    for _ in 0..repeats {
        work();
    }
    start.elapsed() / repeats
}
