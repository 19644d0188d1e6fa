//! Calls on a root and its leaves.

use super::{Call, Told};
use crate::vectors::arguments::{any_proposal, middling, places, small, wide};
use crate::vectors::arguments::{Room, Site, UNWRITTEN};
use crate::vectors::notation;
use model::{
    apply, list, pick_leaves, replace, table, Graph, ListRefusal, Proposal, Record, Refusal, Var,
};
use samples::Random;

pub struct Pick {
    pub graph: Graph,
    pub root: Var,
}

impl Call for Pick {
    const NAME: &'static str = "pick_call";

    fn draw(random: &mut Random) -> Pick {
        let Site { graph, root, .. } = Site::draw(random, wide);
        Pick { graph, root }
    }

    fn arguments(&self) -> Vec<String> {
        vec![notation::graph(&self.graph), self.root.0.to_string()]
    }

    fn told(&self) -> Told {
        let result = pick_leaves(&self.graph, self.root);
        let places = result.map_or(vec![], |leaves| leaves.places.to_vec());
        Told::new(result.map(|leaves| [leaves.count as u64]), &[&places])
    }
}

pub struct Table {
    pub site: Site,
}

impl Call for Table {
    const NAME: &'static str = "table_call";

    fn draw(random: &mut Random) -> Table {
        let site = Site::draw(random, middling);
        Table { site }
    }

    fn arguments(&self) -> Vec<String> {
        self.site.notation()
    }

    fn told(&self) -> Told {
        let Site {
            graph,
            root,
            leaves,
        } = &self.site;
        let result = table(graph, *root, leaves);
        Told::new(result.map(|table| [table]), &[])
    }
}

pub struct List {
    pub site: Site,
    pub room: usize,
}

const UNWRITTEN_RECORD: Record = Record {
    kind: UNWRITTEN as u32,
    first: UNWRITTEN as u32,
    second: UNWRITTEN as u32,
    turned: UNWRITTEN as u32,
    gain: UNWRITTEN as i64,
};

/// The five fields, none of which is ever below 0.
fn fields(record: Record) -> [u32; 5] {
    let Record {
        kind,
        first,
        second,
        turned,
        gain,
    } = record;
    [kind, first, second, turned, gain as u32]
}

/// Gates between the leaves and a root to list, and all divisors of it. The
/// prover tries every pair of them on every pattern, so they stay few.
const MOST_BETWEEN: usize = 2;
const MOST_DIVISORS: usize = 6;

/// Whether a list would take the prover too long; a refusal takes it no time.
fn is_too_long(site: &Site) -> bool {
    site.window().is_some_and(|window| {
        let below = (0..site.root.0).map(Var);
        let divisors = below.filter(|&var| window.is_divisor(var)).count();
        // The constant is a divisor too.
        divisors > (1 + site.leaves.count + MOST_BETWEEN).min(MOST_DIVISORS)
    })
}

impl List {
    fn listed(site: &Site, records: &mut [Record]) -> Result<usize, ListRefusal> {
        list(&site.graph, site.root, &site.leaves, records)
    }
}

impl Call for List {
    const NAME: &'static str = "list_call";

    fn draw(random: &mut Random) -> List {
        let site = Site::draw(random, small);
        if is_too_long(&site) {
            return List::draw(random);
        }
        let need = match List::listed(&site, &mut []) {
            Err(ListRefusal::NoRoom { needed }) => needed,
            _ => 0,
        };
        let room = places(random, need);
        List { site, room }
    }

    fn arguments(&self) -> Vec<String> {
        [self.site.notation(), vec![self.room.to_string()]].concat()
    }

    fn told(&self) -> Told {
        let mut records = vec![UNWRITTEN_RECORD; self.room];
        let result = List::listed(&self.site, &mut records);
        let left: Vec<u32> = records.into_iter().flat_map(fields).collect();
        match result {
            Ok(count) => Told::new(Ok([count as u64]), &[&left]),
            Err(ListRefusal::Refused(refusal)) => Told::new::<0>(Err(refusal), &[&left]),
            Err(ListRefusal::NoRoom { needed }) => {
                let mut told = Told::new::<0>(Err(Refusal::NoRoom), &[&left]);
                told.answer.push(needed as u64);
                told
            }
        }
    }
}

pub struct Apply {
    pub site: Site,
    pub proposal: Proposal,
    pub room: Room,
}

/// The graph afterwards, where the proposal keeps the rule.
fn finished(site: &Site, proposal: &Proposal) -> Option<Graph> {
    let window = site.window()?;
    let kept = proposal.keeps_rule(&window);
    kept.then(|| replace::finished(&site.graph, site.root, proposal))
}

impl Call for Apply {
    const NAME: &'static str = "apply_call";

    fn draw(random: &mut Random) -> Apply {
        let site = Site::draw(random, middling);
        let proposal = any_proposal(random, &site);
        let need = finished(&site, &proposal).unwrap_or_default();
        let room = Room::for_graph(random, &need);
        Apply {
            site,
            proposal,
            room,
        }
    }

    fn arguments(&self) -> Vec<String> {
        let more = vec![notation::proposal(&self.proposal), self.room.notation()];
        [self.site.notation(), more].concat()
    }

    fn told(&self) -> Told {
        let Site {
            graph,
            root,
            leaves,
        } = &self.site;
        let [mut gates, mut outputs] = self.room.lent();
        let result = apply(
            graph,
            *root,
            leaves,
            &self.proposal,
            &mut gates,
            &mut outputs,
        );
        let counts = result.map(|(gates, outputs)| [gates as u64, outputs as u64]);
        Told::new(counts, &[&gates, &outputs])
    }
}
