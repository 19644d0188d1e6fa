//! Assignments, good and bad.

use crate::Random;

/// One value an input, each 0 or 1.
pub fn good(random: &mut Random, inputs: u64) -> Vec<u32> {
    (0..inputs).map(|_| u32::from(random.coin())).collect()
}

/// A value too many or too few, or one that is neither 0 nor 1.
pub fn bad(random: &mut Random, inputs: u64) -> Vec<u32> {
    let mut values = good(random, inputs);
    match random.between(0, 2) {
        0 if inputs > 0 => {
            values.pop();
        }
        1 if inputs > 0 => {
            let place = random.between(0, values.len() - 1);
            values[place] = random.pick(&[2, 3, u32::MAX]);
        }
        _ => values.push(0),
    }
    values
}

/// Every assignment where inputs are few, else some random ones.
pub fn many(random: &mut Random, inputs: u64, few: u64, some: usize) -> Vec<Vec<u32>> {
    if inputs > few {
        return (0..some).map(|_| good(random, inputs)).collect();
    }
    let bits = |number: u32| (0..inputs).map(move |k| (number >> k) & 1).collect();
    (0..1 << inputs).map(bits).collect()
}
