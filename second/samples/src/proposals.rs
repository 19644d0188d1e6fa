//! Random proposals, good and bad of every sort. A good one keeps the rule of
//! its kind; its table may still differ, and it may gain nothing.

use crate::Random;
use model::window::Window;
use model::{Lit, Proposal, Var};

fn divisors(window: &Window) -> Vec<Var> {
    let below = (0..window.root.0).map(Var);
    below.filter(|&var| window.is_divisor(var)).collect()
}

/// A proposal within the rule: kind 1 where two divisors can be had.
pub fn good(random: &mut Random, window: &Window) -> Proposal {
    let divisors = divisors(window);
    let lit = |random: &mut Random, place: usize| divisors[place].lit(random.coin());
    // The constant is the first divisor, so two others need three in all.
    if divisors.len() < 3 || random.once_in(4) {
        let place = random.between(0, divisors.len() - 1);
        return Proposal::single(lit(random, place));
    }
    let high = random.between(2, divisors.len() - 1);
    let low = random.between(1, high - 1);
    let (a, b) = (lit(random, high), lit(random, low));
    Proposal::pair(a, b, u32::from(random.coin()))
}

/// Every proposal within the rule.
fn all(window: &Window) -> Vec<Proposal> {
    let literals: Vec<Lit> = divisors(window)
        .into_iter()
        .flat_map(|var| [var.lit(false), var.lit(true)])
        .collect();
    let mut all: Vec<Proposal> = literals.iter().map(|&lit| Proposal::single(lit)).collect();
    for &a in &literals {
        for &b in &literals {
            all.extend([0, 1].map(|turned| Proposal::pair(a, b, turned)));
        }
    }
    all.retain(|proposal| proposal.keeps_rule(window));
    all
}

/// On how many of the 64 patterns a proposal's table is not the root's.
pub fn wrong_patterns(window: &Window, proposal: &Proposal) -> u32 {
    (proposal.table(window) ^ window.root_table()).count_ones()
}

/// A proposal within the rule that has the root's table, whatever its gain.
pub fn equal(random: &mut Random, window: &Window) -> Option<Proposal> {
    let mut equal = all(window);
    equal.retain(|proposal| wrong_patterns(window, proposal) == 0);
    (!equal.is_empty()).then(|| random.pick(&equal))
}

/// A proposal within the rule whose table is wrong on as few patterns as any.
pub fn nearly_equal(random: &mut Random, window: &Window) -> Option<Proposal> {
    let mut unequal = all(window);
    unequal.retain(|proposal| wrong_patterns(window, proposal) > 0);
    let wrong = unequal
        .iter()
        .map(|proposal| wrong_patterns(window, proposal));
    let least = wrong.min()?;
    unequal.retain(|proposal| wrong_patterns(window, proposal) == least);
    Some(random.pick(&unequal))
}

/// A literal that no proposal at this root may name.
fn bad_literal(random: &mut Random, window: &Window) -> u32 {
    let below = (0..window.root.0).map(Var);
    let mut bad: Vec<Var> = below.filter(|&var| !window.is_divisor(var)).collect();
    bad.extend([window.root, Var(window.root.0 + 1), Var(u32::MAX / 2)]);
    random.pick(&bad).lit(random.coin()).0
}

/// One fault in a proposal that else keeps the rule.
pub fn bad(random: &mut Random, window: &Window) -> Proposal {
    let mut proposal = good(random, window);
    let is_pair = proposal.kind == 1;
    match random.between(0, 7) {
        0 => proposal.kind = random.pick(&[2, 3, u32::MAX]),
        1 => proposal.turned = random.pick(&[2, 3, u32::MAX]),
        2 => proposal.first = bad_literal(random, window),
        3 => proposal.second = bad_literal(random, window),
        4 if is_pair => proposal.second = u32::from(random.coin()),
        5 if is_pair => proposal.second = proposal.first ^ u32::from(random.coin()),
        6 if is_pair => std::mem::swap(&mut proposal.first, &mut proposal.second),
        _ if is_pair => proposal.kind = 0,
        4 | 5 => proposal.turned = 1,
        _ => proposal.second = random.pick(&[1, 2, u32::MAX]),
    }
    proposal
}
