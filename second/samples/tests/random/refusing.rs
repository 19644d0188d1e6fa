//! Bad samples of every sort get their refusal, and nothing lent changes.

use model::window::Window;
use model::{apply, evaluate, list, pick_leaves, run, table};
use model::{Graph, Leaves, Proposal, Record, Refusal, Var};
use samples::{assignments, edges, graphs, proposals, windows, Random};

const POISON: u32 = 0xDEAD_BEEF;

/// Applies into poisoned lists, which a refusal must leave alone.
fn apply_poisoned(
    graph: &Graph,
    root: Var,
    leaves: &Leaves,
    proposal: &Proposal,
) -> Option<Refusal> {
    let (mut gates, mut outputs) = ([POISON; 2048], [POISON; 64]);
    let refusal = apply(graph, root, leaves, proposal, &mut gates, &mut outputs).err();
    if refusal.is_some() {
        assert!(gates.iter().chain(&outputs).all(|&word| word == POISON));
    }
    refusal
}

/// A random graph with a root and leaves that cut it.
fn window(random: &mut Random) -> (Graph, Var, Leaves) {
    window_in(random, graphs::any)
}

/// The same where every proposal can be tried.
fn small_window(random: &mut Random) -> (Graph, Var, Leaves) {
    window_in(random, |random| graphs::redundant(random, graphs::SMALL))
}

fn window_in(random: &mut Random, make: fn(&mut Random) -> Graph) -> (Graph, Var, Leaves) {
    loop {
        let graph = make(random);
        if let Some(root) = windows::good_root(random, &graph) {
            let leaves = windows::cut(random, &graph, root);
            return (graph, root, leaves);
        }
    }
}

#[test]
fn every_call_refuses_every_bad_graph() {
    let none = Leaves::default();
    for graph in edges::bad_graphs() {
        assert_eq!(evaluate(&graph, &[], &mut []), Err(Refusal::BadGraph));
        assert_eq!(pick_leaves(&graph, Var(3)), Err(Refusal::BadGraph));
        assert_eq!(table(&graph, Var(3), &none), Err(Refusal::BadGraph));
        let listed = list(&graph, Var(3), &none, &mut []);
        assert_eq!(listed.unwrap_err().refusal(), Refusal::BadGraph);
        let ran = run(&graph, &mut [], &mut [], &mut [], &mut []);
        assert_eq!(ran, Err(Refusal::BadGraph));
    }
}

#[test]
fn bad_assignments_are_refused() {
    let mut random = Random::new(51);
    for _ in 0..1000 {
        let graph = graphs::any(&mut random);
        let values = assignments::bad(&mut random, graph.inputs);
        let mut results = [POISON; 64];
        let answer = evaluate(&graph, &values, &mut results);
        assert_eq!(answer, Err(Refusal::BadAssignment));
        assert_eq!(results, [POISON; 64]);
    }
}

#[test]
fn bad_roots_are_refused() {
    let mut random = Random::new(52);
    for _ in 0..1000 {
        let graph = graphs::any(&mut random);
        let root = windows::bad_root(&mut random, &graph);
        assert_eq!(pick_leaves(&graph, root), Err(Refusal::BadRoot));
        let answer = table(&graph, root, &Leaves::default());
        assert_eq!(answer, Err(Refusal::BadRoot));
    }
}

#[test]
fn bad_leaves_are_refused() {
    let mut random = Random::new(53);
    for _ in 0..3000 {
        let (graph, root, _) = window(&mut random);
        let leaves = windows::bad_leaves(&mut random, root);
        let answer = table(&graph, root, &leaves);
        assert_eq!(answer, Err(Refusal::BadLeaves), "{leaves:?}");
        let mut records = [Record::default(); 4];
        let listed = list(&graph, root, &leaves, &mut records);
        assert_eq!(listed.unwrap_err().refusal(), Refusal::BadLeaves);
        assert_eq!(records, [Record::default(); 4]);
    }
}

#[test]
fn noise_is_refused_unless_its_leaves_are_well_set_down() {
    let mut random = Random::new(50);
    let mut well_set_down = 0;
    for _ in 0..3000 {
        let (graph, root, _) = window(&mut random);
        let leaves = windows::noise(&mut random, root);
        let used = leaves.places.get(..leaves.count);
        let good = used.is_some_and(|used| {
            let set = Leaves::of(used.iter().map(|&leaf| Var(leaf)));
            set == Some(leaves) && used.iter().all(|&leaf| leaf < root.0)
        });
        let refusal = table(&graph, root, &leaves).err();
        assert_eq!(refusal == Some(Refusal::BadLeaves), !good, "{leaves:?}");
        well_set_down += usize::from(good);
    }
    assert!((1..3000).contains(&well_set_down), "{well_set_down}");
}

#[test]
fn leaves_that_cut_are_refused_after_a_fault() {
    let mut random = Random::new(58);
    for _ in 0..3000 {
        let (graph, root, leaves) = window(&mut random);
        let leaves = windows::with_fault(&mut random, root, leaves);
        let answer = table(&graph, root, &leaves);
        assert_eq!(answer, Err(Refusal::BadLeaves), "{leaves:?}");
    }
}

#[test]
fn leaves_that_cut_do_so_or_not_with_one_leaf_changed() {
    let mut random = Random::new(59);
    let mut refused = 0;
    for _ in 0..3000 {
        let (graph, root, leaves) = window(&mut random);
        let leaves = windows::one_leaf_changed(&mut random, root, leaves);
        let answer = table(&graph, root, &leaves);
        assert!(matches!(answer, Ok(_) | Err(Refusal::NotACut)));
        refused += usize::from(answer.is_err());
    }
    assert!((300..2700).contains(&refused), "{refused}");
}

#[test]
fn bad_proposals_are_refused() {
    let mut random = Random::new(54);
    for _ in 0..10_000 {
        let (graph, root, leaves) = window(&mut random);
        let proposal = proposals::bad(&mut random, &Window::new(&graph, root, &leaves));
        let refusal = apply_poisoned(&graph, root, &leaves, &proposal);
        assert_eq!(refusal, Some(Refusal::BadCandidate), "{proposal:?}");
    }
}

#[test]
fn good_proposals_are_refused_for_their_table_or_their_gain_alone() {
    let mut random = Random::new(55);
    let mut applied = 0;
    for _ in 0..20_000 {
        let (graph, root, leaves) = window(&mut random);
        let proposal = proposals::good(&mut random, &Window::new(&graph, root, &leaves));
        match apply_poisoned(&graph, root, &leaves, &proposal) {
            None => applied += 1,
            Some(refusal) => assert!([Refusal::NotEqual, Refusal::NoGain].contains(&refusal)),
        }
    }
    assert!(applied > 100, "{applied}");
}

#[test]
fn equal_proposals_are_refused_for_their_gain_alone() {
    let mut random = Random::new(56);
    let mut applied = 0;
    for _ in 0..1000 {
        let (graph, root, leaves) = small_window(&mut random);
        let window = Window::new(&graph, root, &leaves);
        if let Some(proposal) = proposals::equal(&mut random, &window) {
            match apply_poisoned(&graph, root, &leaves, &proposal) {
                None => applied += 1,
                Some(refusal) => assert_eq!(refusal, Refusal::NoGain),
            }
        }
    }
    assert!(applied > 100, "{applied}");
}

#[test]
fn nearly_equal_proposals_are_refused_for_their_table() {
    let mut random = Random::new(57);
    let mut on_few = 0;
    for _ in 0..1000 {
        let (graph, root, leaves) = small_window(&mut random);
        let window = Window::new(&graph, root, &leaves);
        if let Some(proposal) = proposals::nearly_equal(&mut random, &window) {
            let refusal = apply_poisoned(&graph, root, &leaves, &proposal);
            assert_eq!(refusal, Some(Refusal::NotEqual));
            on_few += usize::from(proposals::wrong_patterns(&window, &proposal) <= 4);
        }
    }
    assert!(on_few > 10, "{on_few}");
}
