//! Tables and outputs, with what document 01 says of reducing them.

use std::array;

use checker::{Automaton, Change, Reduced, Reduction};

use crate::layout::{BENCH, Rule, bench, refused_tables, rule, table};
use crate::random::Random;
use crate::shapes::{back, cycle, forth, over_leaves, two_cycles, unary};

pub struct Case {
    pub name: String,
    /// What the table reduces to, or the number of a refusal.
    pub expected: Option<Result<Expected, u8>>,
    pub table: Vec<u8>,
    pub room: usize,
}

pub struct Expected {
    pub table: Vec<u8>,
    pub rounds: usize,
}

impl Expected {
    /// The answer for a table that reduces to this one.
    pub fn answer(&self, old: &[u8]) -> Reduced {
        let field = |table: &[u8], place: usize| {
            usize::from(u16::from_le_bytes([table[place], table[place + 1]]))
        };
        let change = |place| Change { old: field(old, place), new: field(&self.table, place) };
        Reduced {
            length: self.table.len(),
            states: change(6),
            rules: change(10),
            rounds: self.rounds,
        }
    }
}

/// Three leaves, two symbols of rank 1 and one of rank 2.
const SYMBOLS: [u8; 6] = [0, 0, 0, 1, 1, 2];
const A: u16 = 0;
const B: u16 = 1;
const C: u16 = 2;
const G: u16 = 3;
const H: u16 = 4;
const F: u16 = 5;

/// States, final states and rules.
type Parts<'a> = (u16, &'a [u16], &'a [Rule<'a>]);

fn over(arity: &[u8], (states, finals, rules): Parts) -> Vec<u8> {
    table(states, arity, finals, rules)
}

/// A table over `SYMBOLS`.
fn small(parts: Parts) -> Vec<u8> {
    over(&SYMBOLS, parts)
}

/// A table over the symbols of the bench table.
fn over_bench(parts: Parts) -> Vec<u8> {
    over(&[0, 0, 2], parts)
}

/// What the bench table reduces to.
fn bench_reduced() -> Vec<u8> {
    let reduced = over_bench((2, &[1], &[(0, 0, &[]), (1, 0, &[]), (2, 1, &[0, 0])]));
    assert_eq!(reduced.len(), 63);
    reduced
}

/// A table without states.
fn nothing(arity: &[u8]) -> Vec<u8> {
    over(arity, (0, &[], &[]))
}

/// A rule with children of its own.
type Owned = (u16, u16, Vec<u16>);

fn lent(rules: &[Owned]) -> Vec<Rule<'_>> {
    rules.iter().map(|(symbol, target, children)| (*symbol, *target, &children[..])).collect()
}

/// A chain of twins, 0 and 1 with a leaf and each later pair above the one
/// before: 1,024 rules for 256 states.
fn twins() -> Vec<u8> {
    let mut rules: Vec<Owned> = Vec::new();
    for target in 0..256 {
        let pair = target / 2 * 2;
        for child in [pair, pair + 1, pair + 1, pair] {
            rules.push(match pair {
                0 => (1, target, vec![]),
                _ => (0, target, vec![child - 2]),
            });
        }
    }
    assert_eq!(rules.len(), 1024);
    table(256, &[1, 0], &[254], &lent(&rules))
}

/// What the twins reduce to, a chain with the rule of its leaf first.
fn twins_reduced() -> Vec<u8> {
    let mut rules: Vec<Owned> = vec![(1, 0, vec![])];
    rules.extend((1..128).map(|state| (0, state, vec![state - 1])));
    table(128, &[1, 0], &[127], &lent(&rules))
}

/// A table as long as can be if a tree belongs to some state. The rules of
/// symbol `i` have target `i`, and nothing can be dropped.
fn longest_live() -> Vec<u8> {
    let mut arity = [8; 256];
    arity[0] = 0;
    let mut rules: Vec<Owned> = vec![(0, 0, vec![])];
    for i in 0..1023_u32 {
        let (state, turn) = (1 + i % 255, i / 255);
        let child = |place: u32| match turn {
            0 => state - 1,
            _ => (state * (place + 2) + turn * 37 + place) % 256,
        };
        rules.push((state as u16, state as u16, (0..8).map(|p| child(p) as u16).collect()));
    }
    let all: Vec<u16> = (0..256).collect();
    let longest = table(256, &arity, &all, &lent(&rules));
    assert_eq!(longest.len(), 27_400);
    longest
}

/// A table as long as can be. All its symbols have rank 8, so that no tree
/// belongs to any state.
fn longest() -> Vec<u8> {
    let rules: Vec<Owned> = (0..1024_u16)
        .map(|i| (i % 256, i / 4, (0..8).map(|place| i / 5 * (place + 3) % 256).collect()))
        .collect();
    let all: Vec<u16> = (0..256).collect();
    let longest = table(256, &[8; 256], &all, &lent(&rules));
    assert_eq!(longest.len(), 27_416);
    longest
}

pub fn all() -> Vec<Case> {
    let mut cases = Cases(Vec::new());
    cases.examples();
    cases.rooms();
    cases.refused_tables();
    cases.unchanged();
    cases.nothing_left();
    cases.bench_tables();
    cases.dead_states();
    cases.unneeded_states();
    cases.groups();
    cases.numbers();
    cases.finals();
    cases.equal_rules();
    cases.outdone_rules();
    cases.rank_8();
    cases.children_through_other_rules();
    cases.symbols();
    cases.chains();
    cases.cycles();
    cases.edges();
    cases.long_tables();
    cases.random();
    cases.0
}

struct Cases(Vec<Case>);

impl Cases {
    fn add(
        &mut self,
        name: impl Into<String>,
        rounds: usize,
        table: Vec<u8>,
        reduced: Vec<u8>,
        room: usize,
    ) {
        let expected = Some(Ok(Expected { table: reduced, rounds }));
        self.0.push(Case { name: name.into(), expected, table, room });
    }

    fn refused(&mut self, name: impl Into<String>, number: u8, table: Vec<u8>, room: usize) {
        self.0.push(Case { name: name.into(), expected: Some(Err(number)), table, room });
    }

    /// The output is as long as the table.
    fn becomes(
        &mut self,
        name: impl Into<String>,
        rounds: usize,
        table: Vec<u8>,
        reduced: Vec<u8>,
    ) {
        let room = table.len();
        self.add(name, rounds, table, reduced, room);
    }

    fn reduces(&mut self, name: impl Into<String>, rounds: usize, old: Parts, new: Parts) {
        self.becomes(name, rounds, small(old), small(new));
    }

    fn stays(&mut self, name: impl Into<String>, rounds: usize, table: Vec<u8>) {
        self.becomes(name, rounds, table.clone(), table);
    }

    fn any(&mut self, name: String, table: Vec<u8>, room: usize) {
        self.0.push(Case { name, expected: None, table, room });
    }

    fn examples(&mut self) {
        self.becomes("bench-table", 1, bench(), bench_reduced());
        self.stays("shortest-table", 0, nothing(&[]));

        let rules: [Rule; 5] =
            [(0, 0, &[]), (1, 1, &[]), (2, 2, &[0, 1]), (2, 3, &[0, 0]), (2, 3, &[1, 1])];
        let crossed = over_bench((4, &[2, 3], &rules));
        self.stays("each-child-through-another-rule", 2, crossed);
    }

    fn rooms(&mut self) {
        for room in [0, 1, 12, 24, 29, 53, 61, 62] {
            self.refused(format!("room-{room}-for-63"), 13, bench(), room);
        }
        for room in [63, 64, 100, 124, 126, 27_416, 27_417, 27_500] {
            self.add(format!("room-{room}-for-63"), 1, bench(), bench_reduced(), room);
        }
        for room in [0, 1, 12, 18, 23] {
            self.refused(format!("room-{room}-for-24"), 13, nothing(&[]), room);
        }
        for room in [25, 100, 27_500] {
            self.add(format!("room-{room}-for-24"), 0, nothing(&[]), nothing(&[]), room);
        }
        // The table as it was is longer than any of these outputs.
        let bare = || over_bench((5, &[], &BENCH));
        for room in [0, 26] {
            self.refused(format!("room-{room}-for-27"), 13, bare(), room);
        }
        for room in [27, 28] {
            self.add(format!("room-{room}-for-27"), 1, bare(), nothing(&[0, 0, 2]), room);
        }
        // Nothing is dropped.
        for room in [0, 62] {
            self.refused(format!("room-{room}-for-63-unchanged"), 13, bench_reduced(), room);
        }
        for room in [64, 70] {
            let name = format!("room-{room}-for-63-unchanged");
            self.add(name, 1, bench_reduced(), bench_reduced(), room);
        }
        for room in [0, 279] {
            self.refused(format!("room-{room}-for-280"), 13, longest(), room);
        }
        self.add("room-280-for-280", 0, longest(), nothing(&[8; 256]), 280);
        self.refused("room-27399-for-27400", 13, longest_live(), 27_399);
        self.add("room-27500-for-27400", 1, longest_live(), longest_live(), 27_500);
    }

    fn refused_tables(&mut self) {
        for (number, table) in refused_tables() {
            for room in [0, 62, 200, 27_500] {
                let name = format!("refused-{number}-with-room-{room}");
                self.refused(name, number, table.clone(), room);
            }
        }
        let mut byte = longest();
        byte.push(22);
        self.refused("longest-table-with-a-byte-behind", 1, byte, 27_500);
        let more = [longest(), rule(255, 255, &[255; 8])].concat();
        self.refused("longest-table-with-a-rule-behind", 7, more, 100);
        let mut cut = longest_live();
        cut.pop();
        self.refused("longest-live-table-without-its-last-byte", 1, cut, 27_500);
    }

    fn unchanged(&mut self) {
        self.stays("bench-table-reduced", 1, bench_reduced());
        self.stays("no-states", 0, nothing(&SYMBOLS));
        self.stays("one-state", 0, small((1, &[0], &[(A, 0, &[])])));
        let rules: [Rule; 4] = [(F, 0, &[0, 0]), (A, 0, &[]), (G, 0, &[0]), (C, 0, &[])];
        self.stays("one-state-with-four-rules", 0, small((1, &[0], &rules)));
        let rules: [Rule; 3] = [(A, 0, &[]), (B, 1, &[]), (C, 2, &[])];
        self.stays("three-leaves", 1, small((3, &[0, 1, 2], &rules)));
        let rules: [Rule; 3] = [(A, 0, &[]), (G, 1, &[0]), (G, 2, &[1])];
        self.stays("two-steps-above-a-leaf", 2, small((3, &[2], &rules)));
        let rules: [Rule; 4] = [(A, 0, &[]), (G, 1, &[0]), (G, 2, &[1]), (G, 0, &[2])];
        self.stays("three-steps-around", 3, small((3, &[1], &rules)));
        let rules: [Rule; 4] = [(F, 3, &[2, 1]), (H, 2, &[1]), (G, 1, &[0]), (A, 0, &[])];
        self.stays("rules-from-the-top-down", 1, small((4, &[3], &rules)));
        let rules: [Rule; 4] = [(A, 3, &[]), (F, 2, &[3, 3]), (H, 1, &[2]), (G, 0, &[1])];
        self.stays("states-from-the-top-down", 1, small((4, &[0], &rules)));
    }

    fn nothing_left(&mut self) {
        let gone = (0, &[][..], &[][..]);
        for (what, finals) in [("no-final-state", &[][..]), ("a-dead-final-state", &[4])] {
            let bench = over_bench((5, finals, &BENCH));
            self.becomes(format!("bench-table-with-{what}"), 1, bench, nothing(&[0, 0, 2]));
        }
        self.reduces("four-states-without-rules", 0, (4, &[1, 3], &[]), gone);
        let bare = over(&[], (4, &[1, 3], &[]));
        self.becomes("four-states-without-symbols", 0, bare, nothing(&[]));
        let rules: [Rule; 3] = [(A, 0, &[]), (G, 1, &[0]), (G, 2, &[1])];
        self.reduces("live-states-without-a-final-one", 2, (3, &[], &rules), gone);
        // Without a leaf no tree belongs to any state.
        let rules: [Rule; 3] = [(G, 1, &[0]), (G, 2, &[1]), (F, 0, &[1, 2])];
        self.reduces("rules-without-leaves", 0, (3, &[0, 1, 2], &rules), gone);
        let rules: [Rule; 3] = [(F, 0, &[1, 2]), (F, 1, &[2, 0]), (F, 2, &[0, 1])];
        self.reduces("three-dead-states", 0, (3, &[0, 1, 2], &rules), gone);
        self.reduces("a-final-state-below-itself", 0, (1, &[0], &[(G, 0, &[0])]), gone);
        let rules: [Rule; 2] = [(A, 0, &[]), (G, 1, &[1])];
        self.reduces("a-dead-final-beside-a-live-state", 0, (2, &[1], &rules), gone);

        let all: Vec<u16> = (0..256).collect();
        self.reduces("256-states-without-rules", 0, (256, &all, &[]), gone);
        let chain = unary(256, &forth(256), &[], &all);
        self.becomes("dead-chain-of-256", 0, chain, nothing(&[1, 0]));
        let rules: [Rule; 1024] = [(A, 0, &[]); 1024];
        self.reduces("1024-rules-without-a-final-state", 0, (1, &[], &rules), gone);
    }

    fn bench_tables(&mut self) {
        // The groups are 0 and 1, 2 alone, 3 alone.
        const LOW: Rule = (0, 0, &[]);
        let both: [Rule; 3] = [LOW, (0, 1, &[]), (1, 1, &[])];
        let three: [Rule; 4] = [LOW, (0, 1, &[]), (1, 1, &[]), (2, 2, &[1, 1])];
        let high: [Rule; 2] = [LOW, (1, 0, &[])];
        let top: [Rule; 3] = [LOW, (1, 0, &[]), (2, 1, &[0, 0])];
        let rows: [(&[u16], Parts); 14] = [
            (&[0], (1, &[0], &[LOW])),
            (&[1], (1, &[0], &[LOW])),
            (&[0, 1], (1, &[0], &[LOW])),
            (&[1, 4], (1, &[0], &[LOW])),
            (&[2], (1, &[0], &high)),
            (&[2, 4], (1, &[0], &high)),
            (&[0, 2], (2, &[0, 1], &both)),
            (&[1, 2], (2, &[0, 1], &both)),
            (&[0, 1, 2], (2, &[0, 1], &both)),
            (&[3, 4], (2, &[1], &top)),
            (&[2, 3], (2, &[0, 1], &top)),
            (&[0, 3], (3, &[0, 2], &three)),
            (&[1, 3, 4], (3, &[0, 2], &three)),
            (&[0, 1, 2, 3, 4], (3, &[0, 1, 2], &three)),
        ];
        for (finals, reduced) in rows {
            let which: Vec<_> = finals.iter().map(u16::to_string).collect();
            let name = format!("bench-table-with-finals-{}", which.join("-"));
            self.becomes(name, 1, over_bench((5, finals, &BENCH)), over_bench(reduced));
        }

        let mut reversed = BENCH;
        reversed.reverse();
        let rules: [Rule; 3] = [(2, 1, &[0, 0]), (1, 0, &[]), (0, 0, &[])];
        self.becomes(
            "bench-table-with-rules-reversed",
            1,
            over_bench((5, &[3], &reversed)),
            over_bench((2, &[1], &rules)),
        );
        let mut turned: Vec<Owned> = BENCH
            .iter()
            .map(|&(symbol, target, children)| {
                (symbol, 4 - target, children.iter().map(|child| 4 - child).collect())
            })
            .collect();
        let rules: [Rule; 3] = [(0, 1, &[]), (1, 1, &[]), (2, 0, &[1, 1])];
        self.becomes(
            "bench-table-with-states-turned",
            1,
            over_bench((5, &[1], &lent(&turned))),
            over_bench((2, &[0], &rules)),
        );
        turned.reverse();
        let rules: [Rule; 3] = [(2, 0, &[1, 1]), (1, 1, &[]), (0, 1, &[])];
        self.becomes(
            "bench-table-with-both-turned",
            1,
            over_bench((5, &[1], &lent(&turned))),
            over_bench((2, &[0], &rules)),
        );
        let twice = [BENCH, BENCH].concat();
        let twice = over_bench((5, &[3], &twice));
        self.becomes("bench-table-with-rules-twice", 1, twice, bench_reduced());
    }

    fn dead_states(&mut self) {
        self.reduces(
            "dead-state-0",
            1,
            (3, &[0, 2], &[(G, 0, &[0]), (A, 1, &[]), (F, 2, &[1, 1])]),
            (2, &[1], &[(A, 0, &[]), (F, 1, &[0, 0])]),
        );
        self.reduces(
            "dead-states-between-live-ones",
            1,
            (
                6,
                &[4, 5],
                &[
                    (G, 0, &[4]),
                    (A, 1, &[]),
                    (G, 2, &[0]),
                    (B, 3, &[]),
                    (G, 4, &[2]),
                    (F, 5, &[1, 3]),
                ],
            ),
            (3, &[2], &[(A, 0, &[]), (B, 1, &[]), (F, 2, &[0, 1])]),
        );
        // With its rule for a dead child, state 1 is not below state 0.
        self.reduces(
            "a-dead-child-tells-twins-apart",
            0,
            (3, &[0, 1], &[(A, 0, &[]), (A, 1, &[]), (G, 1, &[2]), (G, 2, &[2])]),
            (1, &[0], &[(A, 0, &[])]),
        );
        self.reduces(
            "a-dead-child-without-rules-tells-twins-apart",
            0,
            (3, &[0, 2], &[(A, 0, &[]), (F, 2, &[0, 1]), (A, 2, &[])]),
            (1, &[0], &[(A, 0, &[])]),
        );
        self.reduces(
            "dead-states-in-need-of-each-other",
            0,
            (3, &[0, 1, 2], &[(A, 0, &[]), (F, 2, &[0, 1]), (F, 1, &[2, 0])]),
            (1, &[0], &[(A, 0, &[])]),
        );
        self.reduces(
            "a-dead-final-and-a-live-one",
            0,
            (2, &[0, 1], &[(A, 0, &[]), (G, 1, &[1])]),
            (1, &[0], &[(A, 0, &[])]),
        );
        self.reduces(
            "a-final-without-rules",
            1,
            (3, &[1, 2], &[(A, 0, &[]), (G, 2, &[0]), (G, 2, &[1])]),
            (2, &[1], &[(A, 0, &[]), (G, 1, &[0])]),
        );
        self.reduces(
            "a-dead-child-in-either-place",
            1,
            (3, &[2], &[(A, 0, &[]), (F, 2, &[0, 1]), (F, 2, &[1, 0]), (F, 2, &[0, 0])]),
            (2, &[1], &[(A, 0, &[]), (F, 1, &[0, 0])]),
        );
        self.reduces(
            "a-dead-cycle",
            1,
            (4, &[1, 3], &[(A, 0, &[]), (H, 3, &[0]), (G, 1, &[2]), (G, 2, &[1])]),
            (2, &[1], &[(A, 0, &[]), (H, 1, &[0])]),
        );
        // The same cycle with a way into it.
        let rules: [Rule; 5] =
            [(A, 0, &[]), (H, 3, &[0]), (G, 1, &[2]), (G, 2, &[1]), (G, 1, &[0])];
        self.stays("a-cycle-with-a-way-into-it", 3, small((4, &[1, 3], &rules)));

        // With the dead chain there would be more rounds.
        for length in [2, 3, 6, 50, 253] {
            let mut rules: Vec<Owned> = vec![(A, 0, vec![]), (A, 1, vec![]), (G, 2, vec![0])];
            rules.extend((4..3 + length).map(|state| (G, state, vec![state - 1])));
            self.reduces(
                format!("beside-a-dead-chain-of-{length}"),
                1,
                (3 + length, &[2], &lent(&rules)),
                (2, &[1], &[(A, 0, &[]), (G, 1, &[0])]),
            );
        }
        for place in 0..8 {
            let mut children = [0; 8];
            children[place] = 1;
            self.becomes(
                format!("a-dead-child-in-place-{place}"),
                0,
                over(&[0, 8], (2, &[0], &[(0, 0, &[]), (1, 0, &children)])),
                over(&[0, 8], (1, &[0], &[(0, 0, &[])])),
            );
        }
    }

    fn unneeded_states(&mut self) {
        // The states not needed take part in the rounds.
        self.reduces(
            "an-unneeded-chain",
            3,
            (4, &[0], &[(A, 0, &[]), (G, 1, &[0]), (G, 2, &[1]), (G, 3, &[2])]),
            (1, &[0], &[(A, 0, &[])]),
        );
        self.reduces(
            "an-unneeded-cycle",
            3,
            (3, &[0], &[(A, 0, &[]), (G, 1, &[0]), (G, 2, &[1]), (G, 1, &[2])]),
            (1, &[0], &[(A, 0, &[])]),
        );
        self.reduces(
            "an-unneeded-state-above",
            1,
            (2, &[0], &[(A, 0, &[]), (F, 1, &[0, 0])]),
            (1, &[0], &[(A, 0, &[])]),
        );
        self.reduces(
            "an-unneeded-twin",
            1,
            (3, &[2], &[(A, 0, &[]), (A, 1, &[]), (G, 2, &[1])]),
            (2, &[1], &[(A, 0, &[]), (G, 1, &[0])]),
        );
        self.reduces(
            "unneeded-states-between",
            1,
            (
                6,
                &[5],
                &[
                    (C, 0, &[]),
                    (A, 1, &[]),
                    (G, 2, &[1]),
                    (B, 3, &[]),
                    (H, 4, &[3]),
                    (F, 5, &[1, 3]),
                ],
            ),
            (3, &[2], &[(A, 0, &[]), (B, 1, &[]), (F, 2, &[0, 1])]),
        );
        // State 2 is needed as a second child only.
        self.reduces(
            "needed-through-the-second-child",
            1,
            (4, &[3], &[(A, 0, &[]), (B, 1, &[]), (C, 2, &[]), (F, 3, &[0, 2])]),
            (3, &[2], &[(A, 0, &[]), (C, 1, &[]), (F, 2, &[0, 1])]),
        );
    }

    fn groups(&mut self) {
        self.reduces(
            "all-states-alike",
            0,
            (
                4,
                &[2],
                &[
                    (A, 0, &[]),
                    (A, 1, &[]),
                    (A, 2, &[]),
                    (A, 3, &[]),
                    (F, 0, &[1, 2]),
                    (F, 1, &[3, 3]),
                    (F, 2, &[0, 0]),
                    (F, 3, &[2, 1]),
                ],
            ),
            (1, &[0], &[(A, 0, &[]), (F, 0, &[0, 0])]),
        );
        self.reduces(
            "twins-above-twins",
            1,
            (5, &[4], &[(A, 0, &[]), (A, 1, &[]), (G, 2, &[0]), (G, 3, &[1]), (F, 4, &[2, 3])]),
            (3, &[2], &[(A, 0, &[]), (G, 1, &[0]), (F, 2, &[1, 1])]),
        );
        // Grouping on one way alone would join these.
        let rules: [Rule; 4] = [(A, 0, &[]), (A, 1, &[]), (B, 1, &[]), (F, 2, &[0, 1])];
        self.stays("one-below-another", 1, small((3, &[2], &rules)));
        let rules: [Rule; 4] = [(A, 1, &[]), (A, 0, &[]), (B, 0, &[]), (F, 2, &[0, 1])];
        self.stays("one-above-another", 1, small((3, &[2], &rules)));
        let rules: [Rule; 7] = [
            (A, 0, &[]),
            (A, 1, &[]),
            (B, 1, &[]),
            (A, 2, &[]),
            (C, 2, &[]),
            (F, 3, &[1, 2]),
            (G, 3, &[0]),
        ];
        self.stays("one-below-two", 1, small((4, &[3], &rules)));
        let rules: [Rule; 7] = [
            (A, 0, &[]),
            (B, 1, &[]),
            (A, 2, &[]),
            (B, 2, &[]),
            (F, 3, &[0, 1]),
            (G, 3, &[2]),
            (C, 3, &[]),
        ];
        self.stays("one-above-two", 1, small((4, &[3], &rules)));
        let rules: [Rule; 8] = [
            (A, 0, &[]),
            (A, 1, &[]),
            (B, 1, &[]),
            (A, 2, &[]),
            (B, 2, &[]),
            (C, 2, &[]),
            (F, 3, &[0, 1]),
            (G, 3, &[2]),
        ];
        self.stays("three-one-above-the-other", 1, small((4, &[3], &rules)));
        let rules: [Rule; 6] =
            [(A, 0, &[]), (A, 1, &[]), (B, 1, &[]), (G, 2, &[0]), (G, 3, &[1]), (F, 4, &[2, 3])];
        self.stays("one-below-another-above-such", 2, small((5, &[4], &rules)));
        // States 2 and 3 have the same trees; only 3 is below 2.
        let rules: [Rule; 7] = [
            (A, 0, &[]),
            (A, 1, &[]),
            (B, 1, &[]),
            (B, 4, &[]),
            (G, 2, &[1]),
            (G, 3, &[0]),
            (G, 3, &[4]),
        ];
        self.stays("the-same-trees-but-one-way-only", 2, small((5, &[2, 3], &rules)));
        // One more rule, matched by the other, leaves twins alike.
        self.reduces(
            "twins-with-unlike-numbers-of-rules",
            1,
            (
                5,
                &[4],
                &[
                    (A, 0, &[]),
                    (A, 1, &[]),
                    (B, 1, &[]),
                    (G, 2, &[0]),
                    (G, 2, &[1]),
                    (G, 3, &[1]),
                    (F, 4, &[2, 3]),
                ],
            ),
            (3, &[2], &[(A, 0, &[]), (B, 0, &[]), (G, 1, &[0]), (F, 2, &[1, 1])]),
        );
    }

    fn numbers(&mut self) {
        self.reduces(
            "groups-named-from-the-largest-member-on",
            1,
            (5, &[4], &[(B, 2, &[]), (A, 3, &[]), (B, 1, &[]), (A, 0, &[]), (F, 4, &[3, 2])]),
            (3, &[2], &[(B, 1, &[]), (A, 0, &[]), (F, 2, &[0, 1])]),
        );
        self.reduces(
            "the-smallest-member-in-the-last-rule",
            1,
            (6, &[2], &[(A, 5, &[]), (B, 1, &[]), (F, 2, &[5, 1]), (A, 0, &[])]),
            (3, &[2], &[(A, 0, &[]), (B, 1, &[]), (F, 2, &[0, 1])]),
        );
        self.reduces(
            "three-groups-of-two",
            1,
            (
                6,
                &[3],
                &[
                    (A, 0, &[]),
                    (A, 5, &[]),
                    (B, 1, &[]),
                    (B, 4, &[]),
                    (F, 2, &[0, 1]),
                    (F, 3, &[5, 4]),
                ],
            ),
            (3, &[2], &[(A, 0, &[]), (B, 1, &[]), (F, 2, &[0, 1])]),
        );
        // The group of 0 and 4 is not needed; that of 1 and 3 comes to be 0.
        self.reduces(
            "the-first-group-unneeded",
            1,
            (5, &[3], &[(A, 0, &[]), (B, 1, &[]), (C, 2, &[]), (B, 3, &[]), (A, 4, &[])]),
            (1, &[0], &[(B, 0, &[])]),
        );
        // State 0 is dead; the smallest member of the group is 1.
        self.reduces(
            "the-smallest-state-dead",
            1,
            (4, &[2], &[(G, 0, &[0]), (A, 3, &[]), (H, 2, &[3]), (A, 1, &[]), (G, 3, &[0])]),
            (2, &[1], &[(A, 0, &[]), (H, 1, &[0])]),
        );
    }

    fn finals(&mut self) {
        self.reduces(
            "finals-2-and-3-in-groups-2-and-0",
            1,
            (4, &[2, 3], &[(A, 0, &[]), (A, 3, &[]), (B, 1, &[]), (F, 2, &[0, 1])]),
            (3, &[0, 2], &[(A, 0, &[]), (B, 1, &[]), (F, 2, &[0, 1])]),
        );
        self.reduces(
            "finals-2-3-and-4-in-groups-2-1-and-0",
            1,
            (5, &[2, 3, 4], &[(A, 0, &[]), (B, 1, &[]), (F, 2, &[0, 1]), (B, 3, &[]), (A, 4, &[])]),
            (3, &[0, 1, 2], &[(A, 0, &[]), (B, 1, &[]), (F, 2, &[0, 1])]),
        );
        self.reduces(
            "finals-of-one-group",
            0,
            (4, &[1, 2, 3], &[(A, 0, &[]), (A, 1, &[]), (A, 2, &[]), (A, 3, &[])]),
            (1, &[0], &[(A, 0, &[])]),
        );
        self.reduces(
            "finals-of-two-groups-in-turn",
            1,
            (4, &[0, 1, 2, 3], &[(A, 0, &[]), (B, 1, &[]), (A, 2, &[]), (B, 3, &[])]),
            (2, &[0, 1], &[(A, 0, &[]), (B, 1, &[])]),
        );
        self.reduces(
            "finals-1-2-and-3-in-groups-1-0-and-1",
            1,
            (4, &[1, 2, 3], &[(A, 0, &[]), (B, 1, &[]), (A, 2, &[]), (B, 3, &[])]),
            (2, &[0, 1], &[(A, 0, &[]), (B, 1, &[])]),
        );
        // With finality in the relation the results would be others.
        self.reduces(
            "one-twin-final",
            1,
            (3, &[1, 2], &[(A, 0, &[]), (A, 1, &[]), (F, 2, &[0, 1]), (F, 2, &[1, 0])]),
            (2, &[0, 1], &[(A, 0, &[]), (F, 1, &[0, 0])]),
        );
        self.reduces(
            "the-smaller-state-final",
            1,
            (3, &[0, 2], &[(A, 0, &[]), (A, 1, &[]), (B, 1, &[]), (G, 2, &[0]), (G, 2, &[1])]),
            (3, &[0, 2], &[(A, 0, &[]), (A, 1, &[]), (B, 1, &[]), (G, 2, &[1])]),
        );
        self.reduces(
            "the-greater-state-final",
            1,
            (3, &[1, 2], &[(A, 0, &[]), (A, 1, &[]), (B, 1, &[]), (G, 2, &[0]), (G, 2, &[1])]),
            (2, &[0, 1], &[(A, 0, &[]), (B, 0, &[]), (G, 1, &[0])]),
        );
        for (what, finals) in [("0", &[0][..]), ("1", &[1]), ("both", &[0, 1])] {
            self.reduces(
                format!("twin-loops-with-final-{what}"),
                0,
                (2, finals, &[(A, 0, &[]), (G, 0, &[0]), (A, 1, &[]), (G, 1, &[1])]),
                (1, &[0], &[(A, 0, &[]), (G, 0, &[0])]),
            );
        }
    }

    fn equal_rules(&mut self) {
        let one: Parts = (1, &[0], &[(A, 0, &[])]);
        self.reduces("a-rule-twice", 0, (1, &[0], &[(A, 0, &[]), (A, 0, &[])]), one);
        let rules: [Rule; 1024] = [(A, 0, &[]); 1024];
        self.reduces("a-rule-1024-times", 0, (1, &[0], &rules), one);
        // Before they are joined, each of two rules would remove the other.
        self.reduces(
            "two-rules-that-become-one",
            1,
            (3, &[2], &[(A, 0, &[]), (A, 1, &[]), (G, 2, &[0]), (G, 2, &[1])]),
            (2, &[1], &[(A, 0, &[]), (G, 1, &[0])]),
        );
        self.reduces(
            "four-rules-that-become-one",
            1,
            (
                5,
                &[4],
                &[
                    (A, 0, &[]),
                    (B, 2, &[]),
                    (A, 1, &[]),
                    (B, 3, &[]),
                    (F, 4, &[0, 2]),
                    (F, 4, &[1, 3]),
                    (F, 4, &[1, 2]),
                    (F, 4, &[0, 3]),
                ],
            ),
            (3, &[2], &[(A, 0, &[]), (B, 1, &[]), (F, 2, &[0, 1])]),
        );
        self.reduces(
            "rules-with-targets-that-become-one",
            1,
            (4, &[3], &[(A, 0, &[]), (G, 2, &[0]), (H, 3, &[2]), (G, 1, &[0])]),
            (3, &[2], &[(A, 0, &[]), (G, 1, &[0]), (H, 2, &[1])]),
        );
        // Only the first of them stands before the rules between.
        self.reduces(
            "the-first-of-equal-rules-stays",
            1,
            (3, &[2], &[(G, 2, &[0]), (A, 0, &[]), (A, 1, &[]), (B, 2, &[]), (G, 2, &[1])]),
            (2, &[1], &[(G, 1, &[0]), (A, 0, &[]), (B, 1, &[])]),
        );
        self.reduces(
            "the-first-of-equal-rules-names-the-second-twin",
            1,
            (3, &[2], &[(B, 2, &[]), (G, 2, &[1]), (A, 1, &[]), (G, 2, &[0]), (A, 0, &[])]),
            (2, &[1], &[(B, 1, &[]), (G, 1, &[0]), (A, 0, &[])]),
        );
        self.reduces(
            "equal-rules-outdone-together",
            1,
            (
                4,
                &[3],
                &[
                    (A, 0, &[]),
                    (A, 1, &[]),
                    (A, 2, &[]),
                    (B, 2, &[]),
                    (G, 3, &[0]),
                    (G, 3, &[1]),
                    (G, 3, &[2]),
                ],
            ),
            (2, &[1], &[(A, 0, &[]), (B, 0, &[]), (G, 1, &[0])]),
        );
        // Rules 0 and 3 become one; where rule 0 stands, it outdoes rule 2.
        self.reduces(
            "equal-rules-that-outdo",
            1,
            (
                4,
                &[3],
                &[
                    (G, 3, &[1]),
                    (C, 3, &[]),
                    (G, 3, &[0]),
                    (G, 3, &[2]),
                    (A, 0, &[]),
                    (A, 1, &[]),
                    (B, 1, &[]),
                    (A, 2, &[]),
                    (B, 2, &[]),
                ],
            ),
            (2, &[1], &[(G, 1, &[0]), (C, 1, &[]), (A, 0, &[]), (B, 0, &[])]),
        );
    }

    fn outdone_rules(&mut self) {
        // The rule of child 0 is outdone by that of child 1, and this by that of
        // child 2, in whatever order they stand.
        for order in [[0, 1, 2], [0, 2, 1], [1, 0, 2], [1, 2, 0], [2, 0, 1], [2, 1, 0]] {
            let mut rules: Vec<Owned> = [(A, 0), (A, 1), (B, 1), (A, 2), (B, 2), (C, 2)]
                .map(|(leaf, target)| (leaf, target, vec![]))
                .to_vec();
            rules.extend(order.map(|child| (G, 3, vec![child])));
            let [x, y, z] = order;
            self.reduces(
                format!("outdone-by-an-outdone-rule-{x}-{y}-{z}"),
                1,
                (4, &[3], &lent(&rules)),
                (2, &[1], &[(A, 0, &[]), (B, 0, &[]), (C, 0, &[]), (G, 1, &[0])]),
            );
        }

        // State 0 is below state 1.
        let pairs: [(&str, &[Rule]); 4] = [
            ("the-first-child", &[(F, 2, &[0, 1]), (F, 2, &[1, 1])]),
            ("the-second-child", &[(F, 2, &[1, 1]), (F, 2, &[1, 0])]),
            ("both-children", &[(F, 2, &[0, 0]), (F, 2, &[1, 1])]),
            (
                "each-child-and-both",
                &[(F, 2, &[0, 0]), (F, 2, &[0, 1]), (F, 2, &[1, 1]), (F, 2, &[1, 0])],
            ),
        ];
        for (what, rules) in pairs {
            self.reduces(
                format!("outdone-by-{what}"),
                1,
                (3, &[2], &over_leaves(rules)),
                (2, &[1], &[(A, 0, &[]), (B, 0, &[]), (F, 1, &[0, 0])]),
            );
        }
        let crossed = over_leaves(&[(F, 2, &[0, 1]), (F, 2, &[1, 0])]);
        self.stays("crossed-children", 1, small((3, &[2], &crossed)));
        let low = over_leaves(&[(F, 2, &[0, 1]), (F, 2, &[0, 0]), (F, 2, &[1, 0])]);
        self.reduces("outdone-by-two", 1, (3, &[2], &low), (3, &[2], &crossed));
        let other = over_leaves(&[(G, 2, &[0]), (G, 3, &[1])]);
        self.stays("not-outdone-by-another-target", 2, small((4, &[2, 3], &other)));
        let other = over_leaves(&[(G, 2, &[0]), (H, 2, &[1])]);
        self.stays("not-outdone-by-another-symbol", 1, small((3, &[2], &other)));
        let used = over_leaves(&[(G, 2, &[0]), (G, 2, &[1]), (H, 2, &[0])]);
        let kept = over_leaves(&[(G, 2, &[1]), (H, 2, &[0])]);
        self.reduces("outdone-but-the-child-needed", 1, (3, &[2], &used), (3, &[2], &kept));

        // Dropping what is unneeded before what is outdone would leave more.
        self.reduces(
            "outdone-one-level-up",
            2,
            (5, &[4], &over_leaves(&[(G, 2, &[0]), (G, 3, &[1]), (H, 4, &[2]), (H, 4, &[3])])),
            (3, &[2], &[(A, 0, &[]), (B, 0, &[]), (G, 1, &[0]), (H, 2, &[1])]),
        );
        let levels = over_leaves(&[
            (G, 2, &[0]),
            (G, 3, &[2]),
            (G, 4, &[1]),
            (G, 5, &[4]),
            (H, 6, &[3]),
            (H, 6, &[5]),
        ]);
        self.reduces(
            "outdone-two-levels-up",
            3,
            (7, &[6], &levels),
            (4, &[3], &[(A, 0, &[]), (B, 0, &[]), (G, 1, &[0]), (G, 2, &[1]), (H, 3, &[2])]),
        );
        self.reduces(
            "outdone-with-the-same-trees",
            2,
            (
                6,
                &[5],
                &[
                    (A, 0, &[]),
                    (A, 1, &[]),
                    (B, 1, &[]),
                    (B, 4, &[]),
                    (G, 2, &[1]),
                    (G, 3, &[0]),
                    (G, 3, &[4]),
                    (H, 5, &[2]),
                    (H, 5, &[3]),
                ],
            ),
            (3, &[2], &[(A, 0, &[]), (B, 0, &[]), (G, 1, &[0]), (H, 2, &[1])]),
        );
        self.reduces(
            "outdone-by-a-loop",
            1,
            (2, &[1], &[(A, 0, &[]), (A, 1, &[]), (G, 1, &[0]), (G, 1, &[1])]),
            (1, &[0], &[(A, 0, &[]), (G, 0, &[0])]),
        );
        let loops: [Rule; 6] =
            [(A, 0, &[]), (G, 0, &[0]), (A, 1, &[]), (B, 1, &[]), (G, 1, &[1]), (G, 1, &[0])];
        self.reduces(
            "outdone-beside-a-smaller-loop",
            1,
            (2, &[1], &loops),
            (1, &[0], &[(A, 0, &[]), (B, 0, &[]), (G, 0, &[0])]),
        );
        self.reduces(
            "outdone-beside-a-smaller-loop-that-stays",
            1,
            (2, &[0, 1], &loops),
            (2, &[0, 1], &loops[..5]),
        );

        // State i has the leaves up to i, so that each state is below the next.
        for (name, states) in [("8-states-in-a-row-outdone", 8), ("31-states-in-a-row-outdone", 31)]
        {
            let mut arity = vec![0; usize::from(states)];
            arity.push(1);
            let mut rules: Vec<Owned> = Vec::new();
            for state in 0..states {
                rules.push((states, states, vec![state]));
                rules.extend((0..=state).map(|leaf| (leaf, state, vec![])));
            }
            let mut kept: Vec<Owned> = vec![(states, 1, vec![0])];
            kept.extend((0..states).map(|leaf| (leaf, 0, vec![])));
            self.becomes(
                name,
                1,
                over(&arity, (states + 1, &[states], &lent(&rules))),
                over(&arity, (2, &[1], &lent(&kept))),
            );
        }
    }

    fn rank_8(&mut self) {
        let arity = [0, 0, 8];
        let one = |place: usize| array::from_fn::<u16, 8, _>(|i| u16::from(i == place));
        let zero = |place: usize| array::from_fn::<u16, 8, _>(|i| u16::from(i != place));
        let ones = [1; 8];
        let high: [Rule; 3] = [(0, 0, &[]), (1, 0, &[]), (2, 1, &[0; 8])];
        for place in 0..8 {
            let (one, zero) = (one(place), zero(place));
            let pair = over_leaves(&[(2, 2, &zero), (2, 2, &ones)]);
            self.becomes(
                format!("rank-8-outdone-in-place-{place}"),
                1,
                over(&arity, (3, &[2], &pair)),
                over(&arity, (2, &[1], &high)),
            );
            let crossed = over_leaves(&[(2, 2, &zero), (2, 2, &one)]);
            let crossed = over(&arity, (3, &[2], &crossed));
            self.stays(format!("rank-8-crossed-in-place-{place}"), 1, crossed);
        }
        let places: [[u16; 8]; 8] = array::from_fn(zero);
        let mut rules: Vec<Rule> = places.iter().map(|children| (2, 2, &children[..])).collect();
        let apart = over(&arity, (3, &[2], &over_leaves(&rules)));
        self.stays("rank-8-with-a-lower-child-in-each-place", 1, apart);
        rules.insert(3, (2, 2, &ones));
        self.becomes(
            "rank-8-outdone-in-each-place",
            1,
            over(&arity, (3, &[2], &over_leaves(&rules))),
            over(&arity, (2, &[1], &high)),
        );
        let places: [[u16; 8]; 8] = array::from_fn(one);
        let mut rules: Vec<Rule> = places.iter().map(|children| (2, 2, &children[..])).collect();
        let apart = over(&arity, (3, &[2], &over_leaves(&rules)));
        rules.insert(5, (2, 2, &[0; 8]));
        self.becomes(
            "rank-8-outdone-by-each-place",
            1,
            over(&arity, (3, &[2], &over_leaves(&rules))),
            apart,
        );
        self.becomes(
            "rank-8-over-twins",
            1,
            over(
                &arity,
                (
                    3,
                    &[2],
                    &[
                        (0, 0, &[]),
                        (0, 1, &[]),
                        (2, 2, &[0, 1, 0, 1, 0, 1, 0, 1]),
                        (1, 2, &[]),
                        (2, 2, &[1, 0, 1, 0, 1, 0, 1, 0]),
                        (2, 2, &[1; 8]),
                    ],
                ),
            ),
            over(&arity, (2, &[1], &[(0, 0, &[]), (2, 1, &[0; 8]), (1, 1, &[])])),
        );
        let mut rules: Vec<Owned> = (0..8).map(|leaf| (leaf, leaf, vec![])).collect();
        rules.push((8, 8, (0..8).collect()));
        let eight = over(&[0, 0, 0, 0, 0, 0, 0, 0, 8], (9, &[8], &lent(&rules)));
        self.stays("rank-8-needs-each-child", 1, eight);
    }

    fn children_through_other_rules(&mut self) {
        // The rule above state 2 would be outdone by that above state 3.
        let mut rules: Vec<Rule> = vec![
            (A, 0, &[]),
            (B, 1, &[]),
            (F, 2, &[0, 1]),
            (F, 3, &[0, 0]),
            (F, 3, &[1, 1]),
            (G, 4, &[2]),
            (G, 4, &[3]),
        ];
        let above = small((5, &[4], &rules));
        self.stays("each-child-through-another-rule-and-above", 2, above);
        // States 2 and 3 would be alike.
        rules.truncate(5);
        rules.push((F, 2, &[1, 0]));
        let both = small((4, &[2, 3], &rules));
        self.stays("each-child-through-another-rule-both-ways", 2, both);
        // All children fit one rule.
        rules.push((F, 3, &[0, 1]));
        rules.push((F, 3, &[1, 0]));
        self.stays("all-children-through-one-rule", 2, small((4, &[2, 3], &rules)));
        rules.extend([(G, 4, &[3][..]), (G, 4, &[2])]);
        self.reduces(
            "all-children-through-one-rule-and-above",
            2,
            (5, &[4], &rules),
            (
                4,
                &[3],
                &[
                    (A, 0, &[]),
                    (B, 1, &[]),
                    (F, 2, &[0, 0]),
                    (F, 2, &[1, 1]),
                    (F, 2, &[0, 1]),
                    (F, 2, &[1, 0]),
                    (G, 3, &[2]),
                ],
            ),
        );
        let rules: [Rule; 9] = [
            (0, 0, &[]),
            (1, 1, &[]),
            (2, 2, &[]),
            (3, 3, &[0, 1, 2]),
            (3, 4, &[0, 0, 0]),
            (3, 4, &[1, 1, 1]),
            (3, 4, &[2, 2, 2]),
            (4, 5, &[3]),
            (4, 5, &[4]),
        ];
        let three = over(&[0, 0, 0, 3, 1], (6, &[5], &rules));
        self.stays("each-of-three-children-through-another-rule", 2, three);
    }

    fn symbols(&mut self) {
        let more = [0, 0, 2, 8, 1, 0, 3];
        let reduced: [Rule; 3] = [(0, 0, &[]), (1, 0, &[]), (2, 1, &[0, 0])];
        self.becomes(
            "bench-table-with-unused-symbols",
            1,
            over(&more, (5, &[3], &BENCH)),
            over(&more, (2, &[1], &reduced)),
        );
        let bare = over(&more, (5, &[4], &BENCH));
        self.becomes("unused-symbols-without-states", 1, bare, nothing(&more));

        // Ranks 0 to 8 in turn; symbols 252 and 253 have ranks 0 and 1.
        let all: [u8; 256] = array::from_fn(|i| (i % 9) as u8);
        let rules: [Rule; 4] = [(252, 0, &[]), (252, 1, &[]), (253, 2, &[0]), (253, 2, &[1])];
        self.becomes(
            "256-symbols-and-two-of-them-used",
            1,
            over(&all, (3, &[2], &rules)),
            over(&all, (2, &[1], &[(252, 0, &[]), (253, 1, &[0])])),
        );
        self.becomes(
            "256-symbols-and-none-of-them-left",
            1,
            over(&all, (3, &[], &rules)),
            nothing(&all),
        );
        // Rules of symbols that are dropped: one dead, one unneeded.
        let rules: [Rule; 3] = [(255, 1, &[1, 0, 0]), (252, 0, &[]), (253, 2, &[0])];
        self.becomes(
            "256-symbols-and-two-of-them-dropped",
            1,
            over(&all, (3, &[0, 1], &rules)),
            over(&all, (1, &[0], &[(252, 0, &[])])),
        );

        let leaves: Vec<Owned> = (0..256).map(|i| (i, i, vec![])).collect();
        let states: Vec<u16> = (0..256).collect();
        let each = over(&[0; 256], (256, &states, &lent(&leaves)));
        self.stays("a-symbol-of-its-own-for-each-state", 1, each);
        self.becomes(
            "a-symbol-of-its-own-for-the-final-state",
            1,
            over(&[0; 256], (256, &[100], &lent(&leaves))),
            over(&[0; 256], (1, &[0], &[(100, 0, &[])])),
        );
        let leaves: Vec<Owned> = (0..512).map(|i| (i / 2, i % 2, vec![])).collect();
        let joined: Vec<Owned> = (0..256).map(|i| (i, 0, vec![])).collect();
        self.becomes(
            "twins-with-256-symbols",
            0,
            over(&[0; 256], (2, &[1], &lent(&leaves))),
            over(&[0; 256], (1, &[0], &lent(&joined))),
        );
    }

    fn chains(&mut self) {
        // Each round tells one more state apart.
        for n in [2, 9, 64, 65, 251, 256] {
            let chain = unary(n, &forth(n), &[0], &[n - 1]);
            self.stays(format!("chain-of-{n}"), usize::from(n - 1), chain);
            let chain = unary(n, &back(n), &[n - 1], &[0]);
            self.stays(format!("chain-of-{n}-backwards"), usize::from(n - 1), chain);
        }
        // Of the chain only the part below the final state is needed.
        for (n, part) in [(9, 4), (200, 129), (256, 101)] {
            self.becomes(
                format!("chain-of-{n}-needed-up-to-{part}"),
                usize::from(n - 1),
                unary(n, &forth(n), &[0], &[part - 1]),
                unary(part, &forth(part), &[0], &[part - 1]),
            );
            self.becomes(
                format!("chain-of-{n}-backwards-needed-from-{part}"),
                usize::from(n - 1),
                unary(n, &back(n), &[n - 1], &[n - part]),
                unary(part, &back(part), &[part - 1], &[0]),
            );
        }
        // Two chains side by side, all states in pairs.
        for n in [2, 5, 40, 125] {
            let mut steps = forth(2 * n);
            steps.remove(usize::from(n - 1));
            self.becomes(
                format!("two-chains-of-{n}"),
                usize::from(n - 1),
                unary(2 * n, &steps, &[0, n], &[2 * n - 1]),
                unary(n, &forth(n), &[0], &[n - 1]),
            );
        }
    }

    fn cycles(&mut self) {
        let all: Vec<u16> = (0..5).collect();
        self.becomes(
            "cycle-of-leaves",
            0,
            unary(5, &cycle(0, 5), &all, &[3]),
            unary(1, &[(0, 0)], &[0], &[0]),
        );
        for n in [2, 9, 30] {
            let one = unary(n, &cycle(0, n), &[0], &[n / 2]);
            self.stays(format!("cycle-of-{n}"), usize::from(n), one);
        }
        // Each cycle has a leaf where it begins, the second in its middle too.
        for (what, old, new) in
            [("0", &[0][..], &[0][..]), ("3", &[3], &[1]), ("3-and-4", &[3, 4], &[0, 1])]
        {
            self.becomes(
                format!("cycles-of-2-and-4-with-final-{what}"),
                2,
                two_cycles(2, 4, &[0, 2, 4], old),
                unary(2, &cycle(0, 2), &[0], new),
            );
        }
        let leaves = two_cycles(7, 9, &[0, 7], &[0, 7]);
        self.stays("cycles-of-7-and-9-with-a-leaf-each", 18, leaves);
        // Without a leaf a cycle is dead.
        self.becomes(
            "cycles-of-7-and-9-with-one-leaf",
            9,
            two_cycles(7, 9, &[7], &[3, 7]),
            unary(9, &cycle(0, 9), &[0], &[0]),
        );
        self.becomes(
            "cycles-of-7-and-9-with-the-other-leaf",
            7,
            two_cycles(7, 9, &[0], &[3, 7]),
            unary(7, &cycle(0, 7), &[0], &[3]),
        );
        self.becomes(
            "cycles-of-7-and-9-with-one-needed",
            18,
            two_cycles(7, 9, &[0, 7], &[9]),
            unary(9, &cycle(0, 9), &[0], &[2]),
        );
        // All states of the second cycle but its first have a leaf, so that a
        // state of the first fails only where both cycles begin at once.
        for (a, b) in [(7, 9), (9, 7), (16, 17), (31, 33)] {
            let leaves: Vec<u16> = [0].into_iter().chain(a + 1..a + b).collect();
            let name = format!("cycles-of-{a}-and-{b}-meeting-once");
            let meeting = two_cycles(a, b, &leaves, &[a - 1, a]);
            self.stays(name, usize::from(a * b), meeting);
        }
    }

    fn edges(&mut self) {
        // A tree belongs to the last state alone.
        for n in [2, 8, 9, 63, 64, 65, 127, 128, 129, 191, 192, 193, 255, 256] {
            let finals: Vec<u16> = (0..n).collect();
            self.reduces(
                format!("last-of-{n}-states"),
                0,
                (n, &finals, &[(A, n - 1, &[])]),
                (1, &[0], &[(A, 0, &[])]),
            );
        }
        // From word to word of a set of states.
        let states = [0, 63, 64, 127, 128, 191, 192, 255];
        let steps: Vec<(u16, u16)> = states.windows(2).map(|pair| (pair[0], pair[1])).collect();
        self.becomes(
            "a-chain-from-word-to-word",
            7,
            unary(256, &steps, &[0], &[255]),
            unary(8, &forth(8), &[0], &[7]),
        );
        let all: Vec<u16> = (0..256).collect();
        let alike: Vec<Owned> = (0..256).map(|state| (A, state, vec![])).collect();
        self.reduces(
            "256-states-alike",
            0,
            (256, &[255], &lent(&alike)),
            (1, &[0], &[(A, 0, &[])]),
        );
        let four: Vec<Owned> = (0..256).map(|state| (state % 4, state, vec![])).collect();
        self.becomes(
            "256-states-in-four-groups-in-turn",
            1,
            over(&[0; 4], (256, &all, &lent(&four))),
            over(&[0; 4], (4, &[0, 1, 2, 3], &lent(&four[..4]))),
        );
        // The groups come in the order of their smallest members, 0, 64, ...
        let words: Vec<Owned> = (0..256).map(|state| (3 - state / 64, state, vec![])).collect();
        self.becomes(
            "256-states-in-a-group-for-each-word",
            1,
            over(&[0; 4], (256, &[70, 255], &lent(&words))),
            over(&[0; 4], (2, &[0, 1], &[(2, 0, &[]), (0, 1, &[])])),
        );
    }

    fn long_tables(&mut self) {
        self.becomes("longest-table", 0, longest(), nothing(&[8; 256]));
        self.stays("longest-live-table", 1, longest_live());
        self.becomes("128-pairs-of-twins", 127, twins(), twins_reduced());

        // 255 leaves and 769 pairs of them, none above another.
        let mut arity = [0; 256];
        arity[255] = 2;
        let mut rules: Vec<Owned> = (0..255).map(|leaf| (leaf, leaf, vec![])).collect();
        rules.extend((0..769).map(|i| (255, 255, vec![i % 255, (i * 7 + i / 255) % 255])));
        let pairs = over(&arity, (256, &[255], &lent(&rules)));
        self.stays("1024-rules-of-rank-2-none-outdone", 1, pairs);

        // A leaf and three rules for each state, all states alike.
        for (name, rank) in [("1024-rules-of-rank-2-alike", 2), ("1024-rules-of-rank-8-alike", 8)] {
            let rules: Vec<Owned> = (0..1024_u16)
                .map(|i| match i % 4 {
                    0 => (0, i / 4, vec![]),
                    _ => (1, i / 4, (0..rank).map(|place| (i * 3 + place * 11) % 256).collect()),
                })
                .collect();
            let children = vec![0; usize::from(rank)];
            self.becomes(
                name,
                0,
                over(&[0, rank as u8], (256, &[9, 200], &lent(&rules))),
                over(&[0, rank as u8], (1, &[0], &[(0, 0, &[]), (1, 0, &children)])),
            );
        }

        // Four rules for each state, those of state 0 all the same.
        let mut rules: Vec<Owned> = vec![(0, 0, vec![]); 4];
        for q in 1..256 {
            for (left, right) in
                [(q / 2, q / 3), (q / 3, q / 2), (q / 4, q / 2), (q * 5 / 8, q / 7)]
            {
                rules.push((1, q, vec![left, right]));
            }
        }
        let rules = lent(&rules);
        let all: Vec<u16> = (0..256).collect();
        for (what, finals) in [("all", &all[..]), ("255", &[255]), ("100", &[100])] {
            let binary = over(&[0, 2], (256, finals, &rules));
            let room = binary.len();
            self.any(format!("1024-rules-of-rank-2-with-final-{what}"), binary, room);
        }
        let mut rules: Vec<Owned> = (0..4).map(|leaf| (leaf, leaf * 60, vec![])).collect();
        rules.extend((0..1020_u16).map(|i| {
            let children = (0..8).map(|place| (i / 5 * (place + 3) + i % 3) % 256).collect();
            (4 + i % 2, i / 4, children)
        }));
        let wide = over(&[0, 0, 0, 0, 8, 8], (256, &all, &lent(&rules)));
        let room = wide.len();
        self.any("1024-rules-of-rank-8".into(), wide, room);
    }

    fn random(&mut self) {
        let mut random = Random::new(0xa076_1d64_78bd_642f);
        for i in 0..50 {
            self.draw(format!("dense-{i}"), &mut random, |random| random.dense_table().1);
        }
        for i in 0..30 {
            self.draw(format!("sparse-{i}"), &mut random, |random| {
                let n = 1 + random.below(7);
                let k = n + random.below(15);
                random.sparse_table(n, k)
            });
        }
        for i in 0..12 {
            self.draw(format!("larger-sparse-{i}"), &mut random, |random| {
                let n = 10 + random.below(31);
                let k = n + random.below(3 * n);
                random.sparse_table(n, k)
            });
        }
        for i in 0..20 {
            self.draw(format!("leaves-only-{i}"), &mut random, Random::leaf_table);
        }
        for i in 0..36 {
            self.draw(format!("unary-{i}"), &mut random, Random::unary_table);
        }
        for i in 0..46 {
            self.draw(format!("layered-{i}"), &mut random, Random::layered_table);
        }
        for i in 0..46 {
            self.draw(format!("unfolded-{i}"), &mut random, Random::unfolded_table);
        }
        for i in 0..16 {
            let table = random.spoilt_table();
            let room = random.below(100);
            self.any(format!("spoilt-{i}"), table, room);
        }
    }

    /// A random table, and an output about as long as what it reduces to. Most
    /// often something is left.
    fn draw(&mut self, name: String, random: &mut Random, table: impl Fn(&mut Random) -> Vec<u8>) {
        let (table, length) = loop {
            let table = table(random);
            let automaton = Automaton::read(&table).expect("a well-formed table");
            let reduction = Reduction::of(&automaton);
            let reduced = reduction.automaton();
            if reduced.states > 0 || random.below(8) == 0 {
                break (table, reduced.encoded_len());
            }
        };
        let room = match random.below(8) {
            0 => length - 1,
            1 | 2 => length,
            3 => table.len(),
            _ => length + random.below(20),
        };
        self.any(name, table, room);
    }
}
