use checker::{Automaton, Reduction, Simulation};
use trials::forms::{self, Forms};
use trials::seeded::{self, Shape};
use trials::shapes::{LEAF, bench_table, chain, two_cycles};
use trials::{Call, Library, Loan, Proved, Sizes, Swift, layout};

use crate::text::thousands;

const SEED: u64 = 19;

/// About as many nodes as a large tree has.
const NODES: usize = 16_376;

pub struct Workload {
    pub name: &'static str,
    pub how: String,
    pub automaton: Automaton,
    pub rounds: usize,
    pub table: Vec<u8>,
    sizes: Sizes,
    trees: Vec<Tree>,
}

#[derive(Clone)]
struct Tree {
    nodes: usize,
    bytes: Vec<u8>,
}

/// A call whose time is measured.
pub struct Timed {
    pub name: String,
    pub call: Call,
    /// The nodes of the tree that is checked.
    pub nodes: Option<usize>,
}

/// All workloads. The last two are joined forms, as they are and reduced.
pub fn all() -> Vec<Workload> {
    let mut workloads = vec![Workload::new(
        "T",
        "the bench table of document 01",
        bench_table(),
        [1, 8_191].map(|inners| Complete { leaf: 0, inner: 2, rank: 2, inners }.tree()).into(),
    )];
    workloads.extend(drawn());
    workloads.extend(unary());
    workloads.extend(joined_forms());
    workloads
}

/// Tables that are drawn from a seed.
fn drawn() -> [Workload; 5] {
    let large = Shape { states: 256, rules: 1_024, leaves: 16, inners: 48, rank: 2 };
    let small = Shape { states: 64, rules: 256, leaves: 4, inners: 12, ..large };
    let six_symbols = Shape { leaves: 2, inners: 4, ..large };
    let rank_8 = Shape { leaves: 2, inners: 1, rank: 8, ..large };
    let one_binary = Shape { leaves: 1, inners: 1, ..large };
    let sparse = "for each state a leaf and three binary rules of any symbol and children";
    let dense = "each leaf leads to most states, and about half of a symbol's rules or more fit";
    [
        Workload::drawn("64 states", sparse, small.sparse(SEED)),
        Workload::drawn("256 states, 64 symbols", sparse, large.sparse(SEED)),
        Workload::drawn("256 states, 6 symbols", dense, six_symbols.dense(SEED)),
        Workload::drawn("256 states, rank 8", dense, rank_8.dense(SEED)),
        Workload::drawn("256 states, one binary symbol", dense, one_binary.dense(SEED)),
    ]
}

/// Tables of one unary symbol and a leaf.
fn unary() -> [Workload; 2] {
    let unary = |inners| Complete { leaf: LEAF, inner: 0, rank: 1, inners }.tree();
    let trees: Vec<Tree> = [1, 16_383].map(unary).into();
    let cycles = "a leaf at the first state of one cycle and at the others of the other";
    [
        Workload::new("chain of 256 states", "a leaf where it begins", chain(256), trees.clone()),
        Workload::new("cycles of 127 and 129", cycles, two_cycles(127, 129), trees),
    ]
}

fn joined_forms() -> [Workload; 2] {
    let Forms { automaton, count, note, log, welds } = forms::joined(SEED);
    let small = Tree::new(&seeded::tree(&automaton, note, &[], 12, SEED));
    let large = Tree::new(&seeded::tree(&automaton, log, &welds, NODES, SEED));
    let reduced = Reduction::of(&automaton).automaton().clone();
    let how = format!("{count} forms, each with its own dates, names, texts, items and welds");
    let trees = vec![small, large];
    [
        Workload::new("joined forms", how, automaton, trees.clone()),
        Workload::new("joined forms, reduced", "what reduce makes of them", reduced, trees),
    ]
}

impl Workload {
    fn new(
        name: &'static str,
        how: impl Into<String>,
        automaton: Automaton,
        trees: Vec<Tree>,
    ) -> Self {
        let table = automaton.encode();
        let sizes = Sizes { relation: 32 * automaton.states, reduced: table.len() };
        let rounds = Simulation::of(&automaton).rounds();
        Self { name, how: how.into(), automaton, rounds, table, sizes, trees }
    }

    /// With a small and a large tree that belong to state 0.
    fn drawn(name: &'static str, how: &str, automaton: Automaton) -> Self {
        let rank = automaton.ranks[automaton.ranks.len() - 1];
        let tree = |nodes| Tree::new(&seeded::tree(&automaton, 0, &[], nodes, SEED));
        let trees = [1 + usize::from(rank), NODES].map(tree).into();
        Self::new(name, how, automaton, trees)
    }

    /// The calls whose times are measured.
    pub fn timed(&self) -> Vec<Timed> {
        let timed = |call: Call| Timed { name: call.name().into(), call, nodes: None };
        let mut calls = vec![timed(Call::Judge { numbers: 3 })];
        calls.extend(self.checks());
        let relate = Call::Relate { room: 0, numbers: 2 };
        let reduce = Call::Reduce { room: 0, numbers: 6 };
        calls.extend([relate, reduce].map(timed));
        calls
    }

    pub fn checks(&self) -> impl Iterator<Item = Timed> {
        self.trees.iter().map(|tree| Timed {
            name: format!("check, {} nodes", thousands(tree.nodes)),
            call: Call::Check { counts: vec![0; 3], tree: tree.bytes.clone(), numbers: 2 },
            nodes: Some(tree.nodes),
        })
    }

    /// All calls.
    pub fn calls(&self) -> Vec<Call> {
        let compare = Call::Compare { q: 0, r: 1, numbers: 1 };
        let report = Call::Report { length: 0, room: 0, numbers: 1 };
        self.timed().into_iter().map(|timed| timed.call).chain([compare, report]).collect()
    }

    pub fn lend(&self, call: &Call) -> Loan {
        call.lend(&self.table, self.sizes, 0)
    }

    /// Panics unless the library and plain Rust do the same.
    pub fn compare_outcomes(&self, call: &Call) {
        let outcome = |library: &dyn Library| call.perform(library, &self.table, self.sizes, 0);
        assert_eq!(outcome(&Proved), outcome(&Swift), "{}, {}", self.name, call.name());
    }
}

impl Tree {
    fn new(symbols: &[u16]) -> Self {
        Self { nodes: symbols.len(), bytes: layout::tree(symbols) }
    }
}

/// The complete tree of this many inner nodes. Its nodes are numbered from the
/// top, those of equal height from left to right.
struct Complete {
    leaf: u16,
    inner: u16,
    rank: usize,
    inners: usize,
}

impl Complete {
    fn tree(&self) -> Tree {
        let mut symbols = Vec::new();
        self.put(0, &mut symbols);
        Tree::new(&symbols)
    }

    fn put(&self, node: usize, symbols: &mut Vec<u16>) {
        if node >= self.inners {
            return symbols.push(self.leaf);
        }
        for place in 1..=self.rank {
            self.put(self.rank * node + place, symbols);
        }
        symbols.push(self.inner);
    }
}
