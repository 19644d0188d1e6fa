//! Tables by whole words against tables by single patterns.

use crate::{naive, roots};
use model::window::Window;
use model::{table, Refusal, Var};
use samples::{graphs, windows};

#[test]
fn the_root_has_one_table_by_words_and_by_patterns() {
    roots::each(41, 3000, graphs::any, |random, graph, root| {
        let leaves = windows::cut(random, graph, root);
        let window = Window::new(graph, root, &leaves);
        assert_eq!(table(graph, root, &leaves), Ok(window.root_table()));
    });
}

#[test]
fn every_divisor_has_one_table_by_words_and_by_patterns() {
    roots::each(42, 500, graphs::any, |random, graph, root| {
        let leaves = windows::cut(random, graph, root);
        let window = Window::new(graph, root, &leaves);
        for lit in (0..root.0).flat_map(|v| [Var(v).lit(false), Var(v).lit(true)]) {
            let expected = window.is_divisor(lit.var()).then(|| window.table_of(lit));
            assert_eq!(naive::table_of(graph, lit, &leaves), expected);
        }
    });
}

#[test]
fn with_fewer_leaves_the_table_repeats() {
    roots::each(43, 1000, graphs::any, |random, graph, root| {
        let leaves = windows::cut(random, graph, root);
        let table = table(graph, root, &leaves).unwrap();
        for j in leaves.count..6 {
            assert_eq!(table, table.rotate_right(1 << j));
        }
    });
}

#[test]
fn leaves_well_set_down_are_a_cut_or_refused_as_none() {
    roots::each(44, 3000, graphs::any, |random, graph, root| {
        let leaves = windows::good_leaves(random, root);
        let is_cut = Window::new(graph, root, &leaves).cuts_root();
        let refusal = table(graph, root, &leaves).err();
        assert_eq!(refusal, (!is_cut).then_some(Refusal::NotACut));
    });
}
