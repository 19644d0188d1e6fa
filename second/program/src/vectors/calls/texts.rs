//! Reading and writing.

use super::{Call, Told};
use crate::vectors::arguments::{any_graph, places, small, Room, UNWRITTEN};
use crate::vectors::notation;
use model::text::parse;
use model::{read, write, Graph};
use samples::{damage, odd_texts, texts, Random};

pub struct Read {
    pub text: Vec<u8>,
    pub room: Room,
}

/// The prover goes through every byte, so they stay few.
const MOST_BYTES: usize = 500;

fn any_text(random: &mut Random, graph: &Graph) -> Vec<u8> {
    match random.between(0, 9) {
        0 | 1 => texts::valid(random, graph),
        2 => odd_texts::one_number_changed(random, graph),
        3 => odd_texts::any_rest(random, graph),
        4 => odd_texts::cut_anywhere(random, graph),
        5 | 6 => odd_texts::first_line(random),
        7 => odd_texts::noise(random),
        _ => {
            let text = texts::valid(random, graph);
            damage::damaged(random, &text)
        }
    }
}

impl Call for Read {
    const NAME: &'static str = "read_call";

    fn draw(random: &mut Random) -> Read {
        let graph = small(random);
        let text = any_text(random, &graph);
        if text.len() > MOST_BYTES {
            return Read::draw(random);
        }
        let stated = parse(&text).unwrap_or(graph);
        let room = Room::for_graph(random, &stated);
        Read { text, room }
    }

    fn arguments(&self) -> Vec<String> {
        vec![notation::list(&self.text), self.room.notation()]
    }

    fn told(&self) -> Told {
        let [mut gates, mut outputs] = self.room.lent();
        let result = read(&self.text, &mut gates, &mut outputs);
        let counts = result.map(|(inputs, gates, outputs)| [inputs, gates as u64, outputs as u64]);
        Told::new(counts, &[&gates, &outputs])
    }
}

pub struct Write {
    pub graph: Graph,
    pub room: usize,
}

impl Call for Write {
    const NAME: &'static str = "write_call";

    fn draw(random: &mut Random) -> Write {
        let graph = any_graph(random, small);
        let need = match graph.is_well_formed() {
            true => texts::plain(&graph).len(),
            false => 9,
        };
        let room = places(random, need);
        Write { graph, room }
    }

    fn arguments(&self) -> Vec<String> {
        vec![notation::graph(&self.graph), self.room.to_string()]
    }

    fn told(&self) -> Told {
        let mut bytes: Vec<u8> = vec![UNWRITTEN; self.room];
        let result = write(&self.graph, &mut bytes);
        let left: Vec<u32> = bytes.into_iter().map(u32::from).collect();
        Told::new(result.map(|length| [length as u64]), &[&left])
    }
}
