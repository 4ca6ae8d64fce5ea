//! Tables, outputs and pairs of states, with what document 01 says of them.

use std::array;

use checker::Pair::{self, Rule as No, Yes};

use crate::layout::{BENCH, Rule, bench, refused_tables, table};
use crate::random::Random;
use crate::shapes::{back, cycle, forth, over_leaves, two_cycles, unary};

pub struct Case {
    pub name: String,
    pub expected: Option<Expected>,
    pub table: Vec<u8>,
    pub room: usize,
    pub pairs: Vec<(u16, u16)>,
}

pub struct Expected {
    /// The numbers of rounds and pairs, or the number of a refusal.
    pub relation: Result<(usize, usize), u8>,
    pub answers: Vec<Result<Pair, u8>>,
}

/// A pair of states, and the answer to it.
type Query = (u16, u16, Result<Pair, u8>);

/// The answers for the bench table.
const BENCH_ANSWERS: [&str; 5] = ["y y y 0 0", "y y y 1 1", "3 3 y 2 2", "4 4 4 y 4", "7 7 7 7 y"];

const BENCH_QUERIES: [Query; 4] =
    [(2, 0, Ok(No(3))), (0, 2, Ok(Yes)), (3, 4, Ok(No(4))), (0, 5, Err(12))];

/// The number of states in a table's header.
fn states(table: &[u8]) -> u16 {
    u16::from_le_bytes([table[6], table[7]])
}

pub fn all() -> Vec<Case> {
    let mut cases = Cases(Vec::new());
    cases.examples();
    cases.rooms();
    cases.refused_tables();
    cases.unknown_states();
    cases.states_without_rules();
    cases.dead_states();
    cases.rules();
    cases.children();
    cases.finals();
    cases.chains();
    cases.cycles();
    cases.edges();
    cases.long_tables();
    cases.random();
    cases.0
}

struct Cases(Vec<Case>);

impl Cases {
    fn add(
        &mut self,
        name: impl Into<String>,
        relation: Result<(usize, usize), u8>,
        table: Vec<u8>,
        room: usize,
        queries: &[Query],
    ) {
        let pairs = queries.iter().map(|&(q, r, _)| (q, r)).collect();
        let answers = queries.iter().map(|&(_, _, answer)| answer).collect();
        let expected = Some(Expected { relation, answers });
        self.0.push(Case { name: name.into(), expected, table, room, pairs });
    }

    /// A table with the answers to all pairs: a row for each left state, and
    /// in it for each right state `y`, or a rule.
    fn whole(&mut self, name: impl Into<String>, rounds: usize, table: Vec<u8>, rows: &[&str]) {
        let mut queries = Vec::new();
        for (q, row) in (0..).zip(rows) {
            for (r, answer) in (0..).zip(row.split(' ')) {
                let answer = match answer {
                    "y" => Yes,
                    rule => No(rule.parse().expect("a rule")),
                };
                queries.push((q, r, Ok(answer)));
            }
        }
        let n = usize::from(states(&table));
        assert_eq!((rows.len(), queries.len()), (n, n * n));
        let count = queries.iter().filter(|&&(.., answer)| answer == Ok(Yes)).count();
        self.add(name, Ok((rounds, count)), table, 32 * n + 5, &queries);
    }

    fn any(&mut self, name: String, table: Vec<u8>, room: usize, pairs: Vec<(u16, u16)>) {
        self.0.push(Case { name, expected: None, table, room, pairs });
    }

    fn examples(&mut self) {
        self.whole("bench-table", 2, bench(), &BENCH_ANSWERS);
        self.add("bench-table-examples", Ok((2, 9)), bench(), 160, &BENCH_QUERIES[..3]);

        let rules: [Rule; 5] =
            [(0, 0, &[]), (1, 1, &[]), (2, 2, &[0, 1]), (2, 3, &[0, 0]), (2, 3, &[1, 1])];
        self.whole(
            "each-child-through-another-rule",
            2,
            table(4, &[0, 0, 2], &[2, 3], &rules),
            &["y 0 0 0", "1 y 1 1", "2 2 y 2", "3 3 3 y"],
        );

        let rules: [Rule; 3] = [(0, 0, &[]), (1, 0, &[]), (2, 1, &[0, 0])];
        let reduced = table(2, &[0, 0, 2], &[1], &rules);
        self.whole("bench-table-reduced", 1, reduced, &["y 0", "2 y"]);
    }

    fn rooms(&mut self) {
        let empty = table(0, &[], &[], &[]);
        self.add("no-states-and-no-room", Ok((0, 0)), empty.clone(), 0, &[]);
        self.add("no-states-and-room", Ok((0, 0)), empty.clone(), 10, &[]);
        self.add("no-states-and-all-room", Ok((0, 0)), empty, 8_300, &[]);

        for room in [161, 162, 191, 192, 8_192, 8_300] {
            self.add(format!("room-{room}-for-160"), Ok((2, 9)), bench(), room, &BENCH_QUERIES);
        }
        self.add("room-160-for-160", Ok((2, 9)), bench(), 160, &[]);
        for room in [0, 1, 31, 32, 128, 158, 159] {
            self.add(format!("room-{room}-for-160"), Err(13), bench(), room, &BENCH_QUERIES);
        }

        let one = table(1, &[], &[], &[]);
        for room in [32, 33] {
            self.add(format!("room-{room}-for-32"), Ok((0, 1)), one.clone(), room, &[]);
        }
        for room in [0, 1, 30, 31] {
            self.add(format!("room-{room}-for-32"), Err(13), one.clone(), room, &[]);
        }

        let all = table(256, &[], &[], &[]);
        let queries = [(255, 255, Ok(Yes)), (0, 255, Ok(Yes)), (255, 256, Err(12))];
        for room in [8_192, 8_193, 8_300] {
            let relation = Ok((0, 65_536));
            self.add(format!("room-{room}-for-8192"), relation, all.clone(), room, &queries);
        }
        for room in [0, 255, 256, 4_096, 8_160, 8_191] {
            self.add(format!("room-{room}-for-8192"), Err(13), all.clone(), room, &queries);
        }
    }

    fn refused_tables(&mut self) {
        for (number, table) in refused_tables() {
            let due = Err(number);
            let queries = [(0, 2, due), (2, 0, due), (5, 0, due), (0, 65_535, due)];
            let name = format!("refused-{number}");
            self.add(name, Err(number), table.clone(), 200, &queries);
            self.add(format!("refused-{number}-without-room"), Err(number), table, 0, &queries);
        }
        self.add("refused-2-without-pairs", Err(2), vec![], 160, &[]);
    }

    fn unknown_states(&mut self) {
        let mut queries: Vec<Query> = Vec::new();
        for state in [5, 6, 255, 256, 257, 259, 260, 512, 32_768, 65_280, 65_535] {
            queries.extend([(state, 0, Err(12)), (0, state, Err(12)), (state, state, Err(12))]);
        }
        queries.extend([(5, 6, Err(12)), (65_535, 5, Err(12)), (4, 4, Ok(Yes))]);
        self.add("unknown-states", Ok((2, 9)), bench(), 160, &queries);

        let empty = table(0, &[0], &[], &[]);
        let queries = [(0, 0, Err(12)), (0, 1, Err(12)), (1, 0, Err(12)), (256, 256, Err(12))];
        self.add("unknown-states-of-none", Ok((0, 0)), empty, 3, &queries);
        let one = table(1, &[0], &[], &[(0, 0, &[])]);
        let queries = [(0, 0, Ok(Yes)), (0, 1, Err(12)), (1, 0, Err(12)), (1, 1, Err(12))];
        self.add("unknown-states-of-one", Ok((0, 1)), one, 32, &queries);
        let all = table(256, &[0], &[], &[(0, 0, &[])]);
        let queries = [
            (0, 255, Ok(No(0))),
            (255, 0, Ok(Yes)),
            (256, 0, Err(12)),
            (0, 256, Err(12)),
            (256, 256, Err(12)),
            (255, 511, Err(12)),
        ];
        self.add("unknown-states-of-256", Ok((1, 65_281)), all, 8_192, &queries);
    }

    fn states_without_rules(&mut self) {
        self.whole("one-state", 0, table(1, &[], &[], &[]), &["y"]);
        self.whole("four-states-without-rules", 0, table(4, &[0], &[1], &[]), &["y y y y"; 4]);
        self.whole(
            "state-1-without-rules",
            1,
            table(3, &[0, 1], &[0], &[(0, 0, &[]), (1, 2, &[1])]),
            &["y 0 0", "y y y", "1 1 y"],
        );
        // A child without rules is below any other child.
        self.whole(
            "children-without-rules",
            2,
            table(5, &[0, 1], &[], &[(0, 0, &[]), (1, 2, &[1]), (1, 3, &[0]), (1, 4, &[4])]),
            &["y 0 0 0 0", "y y y y y", "1 1 y y y", "2 2 2 y 2", "3 3 3 3 y"],
        );
    }

    fn dead_states(&mut self) {
        // No tree belongs to state 1, and still not all states simulate it.
        self.whole(
            "dead-state-1",
            2,
            table(3, &[0, 1], &[2], &[(0, 0, &[]), (1, 1, &[1]), (1, 2, &[0])]),
            &["y 0 0", "1 y 1", "2 2 y"],
        );
        // State 1 is not below state 0, so that rule 1 is unmatched before rule 2.
        self.whole(
            "dead-state-below-a-live-one",
            1,
            table(2, &[0, 1], &[], &[(1, 0, &[0]), (1, 1, &[1]), (0, 1, &[])]),
            &["y y", "1 y"],
        );
        self.whole(
            "three-dead-states",
            0,
            table(3, &[2], &[0], &[(0, 0, &[1, 2]), (0, 1, &[2, 0]), (0, 2, &[0, 1])]),
            &["y y y"; 3],
        );
    }

    fn rules(&mut self) {
        let rules: [Rule; 3] = [(0, 0, &[]), (0, 0, &[]), (0, 1, &[])];
        self.whole("a-rule-twice", 0, table(2, &[0], &[], &rules), &["y y"; 2]);
        let rules: [Rule; 4] = [(0, 0, &[]), (1, 0, &[]), (1, 0, &[]), (0, 1, &[])];
        let twice = table(2, &[0, 0], &[], &rules);
        self.whole("an-unmatched-rule-twice", 1, twice, &["y 1", "y y"]);
        let rules: [Rule; 5] =
            [(1, 1, &[0]), (0, 0, &[]), (1, 2, &[0]), (1, 1, &[0]), (1, 2, &[0])];
        let apart = table(3, &[0, 1], &[2], &rules);
        self.whole("rules-twice-but-apart", 1, apart, &["y 1 1", "0 y y", "2 y y"]);

        let rules: [Rule; 5] = [(0, 1, &[]), (0, 0, &[]), (1, 1, &[]), (2, 0, &[]), (2, 1, &[])];
        let mixed = table(2, &[0, 0, 0], &[], &rules);
        self.whole("the-middle-rule-unmatched", 1, mixed, &["y y", "2 y"]);
        let rules: [Rule; 4] = [(0, 0, &[]), (1, 1, &[]), (2, 0, &[]), (2, 1, &[])];
        let crossed = table(2, &[0, 0, 0], &[], &rules);
        self.whole("neither-way", 1, crossed, &["y 0", "1 y"]);

        // Symbols of one rank are not the same.
        let rules: [Rule; 3] = [(0, 0, &[]), (1, 1, &[0]), (2, 2, &[0])];
        let symbols = table(3, &[0, 1, 1], &[], &rules);
        self.whole("two-symbols-of-rank-1", 1, symbols, &["y 0 0", "1 y 1", "2 2 y"]);

        let rules: [Rule; 4] = [(0, 0, &[]), (0, 1, &[]), (1, 2, &[0]), (1, 3, &[1])];
        self.whole(
            "twins-above-twins",
            1,
            table(4, &[0, 1], &[], &rules),
            &["y y 0 0", "y y 1 1", "2 2 y y", "3 3 y y"],
        );

        // One rule of state 3 matches both of state 2, or each needs its own.
        let one = over_leaves(&[(2, 2, &[0, 0]), (2, 2, &[0, 1]), (2, 3, &[1, 1])]);
        let leaves = ["y y 0 0", "2 y 1 1"];
        self.whole(
            "one-rule-matches-two",
            2,
            table(4, &[0, 0, 2], &[], &one),
            &[leaves[0], leaves[1], "3 3 y y", "5 5 5 y"],
        );
        let own =
            over_leaves(&[(2, 2, &[0, 1]), (2, 2, &[1, 0]), (2, 3, &[0, 1]), (2, 3, &[1, 0])]);
        self.whole(
            "each-rule-matches-one",
            1,
            table(4, &[0, 0, 2], &[], &own),
            &[leaves[0], leaves[1], "3 3 y y", "5 5 y y"],
        );
        let second = over_leaves(&[(2, 2, &[0, 1]), (2, 2, &[1, 1]), (2, 3, &[0, 1])]);
        self.whole(
            "the-second-rule-unmatched",
            2,
            table(4, &[0, 0, 2], &[], &second),
            &[leaves[0], leaves[1], "3 3 y 4", "5 5 y y"],
        );
    }

    fn children(&mut self) {
        self.whole(
            "children-in-both-orders",
            2,
            table(4, &[0, 0, 2], &[], &over_leaves(&[(2, 2, &[0, 1]), (2, 3, &[1, 0])])),
            &["y y 0 0", "2 y 1 1", "3 3 y 3", "4 4 4 y"],
        );

        let rules: [Rule; 7] = [
            (0, 0, &[]),
            (1, 1, &[]),
            (2, 2, &[]),
            (3, 3, &[0, 1, 2]),
            (3, 4, &[0, 0, 0]),
            (3, 4, &[1, 1, 1]),
            (3, 4, &[2, 2, 2]),
        ];
        self.whole(
            "each-of-three-children-through-another-rule",
            2,
            table(5, &[0, 0, 0, 3], &[4], &rules),
            &["y 0 0 0 0", "1 y 1 1 1", "2 2 y 2 2", "3 3 3 y 3", "4 4 4 4 y"],
        );
        // Two children fit each rule of state 3, never all three.
        let rules: [Rule; 6] = [
            (0, 0, &[]),
            (1, 1, &[]),
            (2, 2, &[0, 0, 0]),
            (2, 3, &[1, 0, 0]),
            (2, 3, &[0, 1, 0]),
            (2, 3, &[0, 0, 1]),
        ];
        self.whole(
            "two-of-three-children",
            2,
            table(4, &[0, 0, 3], &[2], &rules),
            &["y 0 0 0", "1 y 1 1", "2 2 y 2", "3 3 3 y"],
        );

        let eight = over_leaves(&[
            (2, 2, &[0; 8]),
            (2, 3, &[0, 0, 0, 0, 0, 0, 0, 1]),
            (2, 4, &[1, 0, 0, 0, 0, 0, 0, 0]),
            (2, 5, &[1; 8]),
        ]);
        self.whole(
            "rank-8",
            2,
            table(6, &[0, 0, 8], &[], &eight),
            &[
                "y y 0 0 0 0",
                "2 y 1 1 1 1",
                "3 3 y y y y",
                "4 4 4 y 4 y",
                "5 5 5 5 y y",
                "6 6 6 6 6 y",
            ],
        );
        let crossed: [Rule; 5] = [
            (0, 0, &[]),
            (1, 1, &[]),
            (2, 2, &[0, 0, 0, 0, 0, 0, 0, 1]),
            (2, 3, &[0; 8]),
            (2, 3, &[1; 8]),
        ];
        self.whole(
            "eight-children-through-two-rules",
            2,
            table(4, &[0, 0, 8], &[], &crossed),
            &["y 0 0 0", "1 y 1 1", "2 2 y 2", "3 3 3 y"],
        );

        // States 2 to 9 have their one child 1 each in another place, state 10
        // has none and state 11 has eight.
        let children: [[u16; 8]; 10] =
            array::from_fn(|one| array::from_fn(|place| u16::from(one == place || one == 9)));
        let inner: Vec<Rule> = (2..).zip(&children).map(|(q, c)| (2, q, &c[..])).collect();
        let places = table(12, &[0, 0, 8], &[], &over_leaves(&inner));
        let mut queries: Vec<Query> = Vec::new();
        for q in 2..12 {
            for r in 2..12 {
                let answer =
                    if q == r || q == 10 || r == 11 { Yes } else { No(usize::from(q) + 1) };
                queries.push((q, r, Ok(answer)));
            }
        }
        self.add("rank-8-in-each-place", Ok((2, 30)), places, 384, &queries);
    }

    fn finals(&mut self) {
        let twins: [Rule; 4] = [(0, 0, &[]), (1, 0, &[0]), (0, 1, &[]), (1, 1, &[1])];
        for (what, finals) in [("none", &[][..]), ("0", &[0]), ("1", &[1]), ("all", &[0, 1])] {
            let twins = table(2, &[0, 1], finals, &twins);
            self.whole(format!("twins-with-final-{what}"), 0, twins, &["y y"; 2]);
        }
        let every = [0, 1, 2, 3, 4];
        for (what, finals) in [("none", &[][..]), ("0", &[0]), ("2", &[2]), ("all", &every)] {
            let bench = table(5, &[0, 0, 2], finals, &BENCH);
            self.whole(format!("bench-table-with-final-{what}"), 2, bench, &BENCH_ANSWERS);
        }
    }

    fn chains(&mut self) {
        self.whole(
            "chain-of-6",
            5,
            unary(6, &forth(6), &[], &[]),
            &[
                "y y y y y y",
                "0 y y y y y",
                "1 1 y y y y",
                "2 2 2 y y y",
                "3 3 3 3 y y",
                "4 4 4 4 4 y",
            ],
        );
        self.whole(
            "chain-of-6-backwards",
            5,
            unary(6, &back(6), &[], &[]),
            &[
                "y 0 0 0 0 0",
                "y y 1 1 1 1",
                "y y y 2 2 2",
                "y y y y 3 3",
                "y y y y y 4",
                "y y y y y y",
            ],
        );
        self.whole(
            "chain-of-4-on-a-leaf",
            3,
            unary(4, &forth(4), &[0], &[]),
            &["y 3 3 3", "0 y 0 0", "1 1 y 1", "2 2 2 y"],
        );

        // Each round tells one more state apart.
        for n in [60, 250] {
            let count = usize::from(n);
            let last = n - 1;
            let queries = [
                (0, last, Ok(Yes)),
                (last, 0, Ok(No(count - 2))),
                (last - 1, last, Ok(Yes)),
                (last, last - 1, Ok(No(count - 2))),
                (last, last, Ok(Yes)),
                (31, 30, Ok(No(30))),
                (30, 31, Ok(Yes)),
            ];
            let relation = Ok((count - 1, count * (count + 1) / 2));
            let chain = unary(n, &forth(n), &[], &[]);
            self.add(format!("chain-of-{n}"), relation, chain, 32 * count, &queries);
        }
        for n in [60, 256] {
            let count = usize::from(n);
            let last = n - 1;
            let queries = [
                (0, last, Ok(No(0))),
                (last, 0, Ok(Yes)),
                (last - 1, last, Ok(No(count - 2))),
                (last, last - 1, Ok(Yes)),
                (30, 31, Ok(No(30))),
                (31, 30, Ok(Yes)),
            ];
            let relation = Ok((count - 1, count * (count + 1) / 2));
            let chain = unary(n, &back(n), &[], &[]);
            self.add(format!("chain-of-{n}-backwards"), relation, chain, 32 * count, &queries);
        }
        let queries = [
            (0, 59, Ok(No(59))),
            (59, 0, Ok(No(58))),
            (58, 59, Ok(No(57))),
            (59, 58, Ok(No(58))),
            (59, 59, Ok(Yes)),
            (30, 31, Ok(No(29))),
        ];
        let chain = unary(60, &forth(60), &[0], &[]);
        self.add("chain-of-60-on-a-leaf", Ok((59, 60)), chain, 1_920, &queries);
    }

    fn cycles(&mut self) {
        self.whole("cycle-of-3", 0, unary(3, &cycle(0, 3), &[], &[]), &["y y y"; 3]);
        self.whole(
            "cycle-of-3-with-a-leaf",
            3,
            unary(3, &cycle(0, 3), &[0], &[]),
            &["y 2 2", "0 y 0", "1 1 y"],
        );
        // Each cycle has a leaf where it begins.
        self.whole(
            "cycles-of-2-and-4",
            2,
            two_cycles(2, 4, &[0, 2, 4], &[]),
            &[
                "y 1 y 1 y 1",
                "0 y 0 y 0 y",
                "y 5 y 5 y 5",
                "2 y 2 y 2 y",
                "y 3 y 3 y 3",
                "4 y 4 y 4 y",
            ],
        );
        let bare = two_cycles(7, 9, &[], &[]);
        let queries = [(0, 7, Ok(Yes)), (15, 6, Ok(Yes))];
        self.add("cycles-of-7-and-9", Ok((0, 256)), bare, 512, &queries);
        // State 15 meets its leaf after 8 steps and after 17; state 1 has its
        // own after 1, 8 and 15.
        let queries = [
            (0, 7, Ok(No(6))),
            (7, 0, Ok(No(15))),
            (15, 1, Ok(No(14))),
            (6, 13, Ok(No(5))),
            (15, 15, Ok(Yes)),
        ];
        let leaves = two_cycles(7, 9, &[0, 7], &[]);
        self.add("cycles-of-7-and-9-with-a-leaf-each", Ok((18, 16)), leaves, 512, &queries);
        // The states of a cycle without a leaf are below all.
        let queries = [(0, 15, Ok(Yes)), (3, 8, Ok(Yes)), (7, 0, Ok(No(15)))];
        let one = two_cycles(7, 9, &[7], &[]);
        self.add("cycles-of-7-and-9-with-one-leaf", Ok((9, 121)), one, 512, &queries);

        // All states of the second cycle but its first have a leaf, so that a
        // state of the first fails only where both cycles begin at once.
        for (a, b) in [(7, 9), (9, 7), (16, 17), (31, 33)] {
            let leaves: Vec<u16> = [0].into_iter().chain(a + 1..a + b).collect();
            let n = usize::from(a + b);
            let relation = Ok((usize::from(a * b), n));
            let queries = [
                (0, a, Ok(No(usize::from(a) - 1))),
                (a - 1, a + b - 1, Ok(No(usize::from(a) - 2))),
                (0, 0, Ok(Yes)),
                (a, a, Ok(Yes)),
                (a + b, 0, Err(12)),
            ];
            let name = format!("cycles-of-{a}-and-{b}-meeting-once");
            self.add(name, relation, two_cycles(a, b, &leaves, &[]), 32 * n, &queries);
        }
    }

    fn edges(&mut self) {
        // All states but the last are without rules.
        for n in [2, 8, 9, 63, 64, 65, 127, 128, 129, 191, 192, 193, 255, 256] {
            let count = usize::from(n);
            let last = n - 1;
            let relation = Ok((1, count * (count - 1) + 1));
            let rules: [Rule; 1] = [(0, last, &[])];
            let single = table(n, &[0], &[], &rules);
            let queries = [
                (0, last, Ok(Yes)),
                (last, 0, Ok(No(0))),
                (last, last, Ok(Yes)),
                (last, n, Err(12)),
            ];
            self.add(format!("last-of-{n}-states"), relation, single, 32 * count, &queries);
        }

        // States 0, 64, 128 and 192 have a leaf each of their own.
        let rules: [Rule; 4] = [(0, 0, &[]), (1, 64, &[]), (2, 128, &[]), (3, 192, &[])];
        let words = table(256, &[0; 4], &[], &rules);
        let queries = [
            (0, 64, Ok(No(0))),
            (64, 0, Ok(No(1))),
            (128, 192, Ok(No(2))),
            (192, 128, Ok(No(3))),
            (192, 192, Ok(Yes)),
            (1, 65, Ok(Yes)),
            (65, 128, Ok(Yes)),
        ];
        self.add("a-state-in-each-word", Ok((1, 252 * 256 + 4)), words, 8_192, &queries);

        let mut arity = [8; 256];
        arity[254] = 0;
        arity[255] = 1;
        let rules: [Rule; 3] = [(255, 1, &[0]), (254, 0, &[]), (255, 2, &[1])];
        let symbols = table(3, &arity, &[], &rules);
        self.whole("256-symbols", 2, symbols, &["y 1 1", "0 y 0", "2 2 y"]);
    }

    fn long_tables(&mut self) {
        // Four rules for each state, those of state 0 all the same.
        let children: Vec<[u16; 2]> = (1..256)
            .flat_map(|q| [[q / 2, q / 3], [q / 3, q / 2], [q / 4, q / 2], [q * 5 / 8, q / 7]])
            .collect();
        let inner = (4..).zip(&children).map(|(i, c)| (1, i / 4, &c[..]));
        let rules: Vec<Rule> = [(0, 0, &[][..]); 4].into_iter().chain(inner).collect();
        let pairs = |count: u16| (0..count).map(|i| (i * 7 % 256, i * 45 % 256)).collect();
        let binary = table(256, &[0, 2], &[], &rules);
        self.any("1024-rules-of-rank-2".into(), binary, 8_192, pairs(60));

        let children: Vec<[u16; 8]> = (0..1024_usize)
            .map(|i| array::from_fn(|place| ((i / 5 * (place + 3) + i % 3) % 256) as u16))
            .collect();
        let rules: Vec<Rule> =
            (0..).zip(&children).map(|(i, c)| (i % 256, i / 4, &c[..])).collect();
        let all: Vec<u16> = (0..256).collect();
        let longest = table(256, &[8; 256], &all, &rules);
        assert_eq!(longest.len(), 27_416);
        self.any("longest-table".into(), longest, 8_192, pairs(40));
    }

    fn random(&mut self) {
        let mut random = Random::new(0xd1b5_4a32_d192_ed03);
        for i in 0..120 {
            let (n, k) = if i % 3 == 0 {
                (1 + random.below(7), random.below(15))
            } else {
                let n = 3 + random.below(5);
                (n, n + random.below(15 - n))
            };
            let table = random.sparse_table(n, k);
            let room = match random.below(8) {
                0 => 32 * n - 1 - random.below(32),
                1 | 2 => 32 * n,
                _ => 32 * n + random.below(20),
            };
            let states = 0..n as u16;
            let pairs = states.clone().flat_map(|q| states.clone().map(move |r| (q, r)));
            self.any(format!("random-{i}"), table, room, pairs.collect());
        }
        for i in 0..12 {
            let n = 10 + random.below(31);
            let k = n + random.below(2 * n);
            let table = random.sparse_table(n, k);
            let pairs = (0..30).map(|_| (random.below(n) as u16, random.below(n) as u16)).collect();
            self.any(format!("larger-random-{i}"), table, 32 * n, pairs);
        }
    }
}
