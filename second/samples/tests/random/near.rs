//! A proposal that should be wrong on one pattern is wrong on it alone.

use model::replace::gain;
use model::window::{self, Window};
use samples::{near, Random};

#[test]
fn each_pattern_is_the_only_wrong_one() {
    let mut random = Random::new(45);
    for pattern in (0..64).cycle().take(64 * 50) {
        let (graph, root, leaves, proposal) = near::wrong_on(&mut random, pattern);
        assert_eq!(window::check(&graph, root, &leaves), Ok(()));
        let window = Window::new(&graph, root, &leaves);
        assert!(proposal.keeps_rule(&window));
        let wrong = proposal.table(&window) ^ window.root_table();
        assert_eq!(wrong, 1 << pattern);
        assert!(gain(&graph, root, &proposal) >= 1);
    }
}
