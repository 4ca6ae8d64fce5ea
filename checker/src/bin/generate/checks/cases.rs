//! Tables and trees, each with the answer that documents 01 and 02 give.

use crate::layout::{
    BENCH, Rule, bench, record, refused_tables, table, tree, with_kind, with_length, words,
};
use crate::random::Random;

pub struct Case {
    pub name: String,
    pub expected: Option<Expected>,
    pub table: Vec<u8>,
    pub tree: Vec<u8>,
    pub before: Counts,
}

pub struct Expected {
    pub answer: Due,
    pub after: Counts,
}

/// The answer that is due.
#[derive(Clone, Copy, Debug, PartialEq, Eq)]
pub enum Due {
    Accepted,
    /// The subtree to look at, by its node and its size.
    Rejected(usize, usize),
    /// The number of the refusal.
    Refused(u8),
}

/// How many trees were accepted, rejected and refused.
type Counts = [u32; 3];

/// The symbols of the bench table.
const A: u16 = 0;
const B: u16 = 1;
const F: u16 = 2;

/// One symbol more, of rank 8, and one of rank 1.
const H: u16 = 3;
const G: u16 = 4;

/// Symbols without a rule, of ranks 0, 1 and 2.
const C: u16 = 5;
const D: u16 = 6;
const E: u16 = 7;

const FULL: u32 = 4_294_967_295;

/// Rules to one state for each tree over A, B, F, G and H.
const EVERY: [Rule; 5] = [(A, 0, &[]), (B, 0, &[]), (F, 0, &[0, 0]), (G, 0, &[0]), (H, 0, &[0; 8])];

/// A table that accepts each tree over A, B, F, G and H.
fn every_tree() -> Vec<u8> {
    table(1, &[0, 0, 2, 8, 1], &[0], &EVERY)
}

/// A table of a leaf, symbol 0, and a symbol of rank 1 that counts to three.
fn thirds(accepting: u16) -> Vec<u8> {
    let rules: [Rule; 4] = [(0, 0, &[]), (1, 1, &[0]), (1, 2, &[1]), (1, 0, &[2])];
    table(3, &[0, 1], &[accepting], &rules)
}

/// A leaf with nodes of symbol 1 above it.
fn chain(nodes: usize) -> Vec<u16> {
    let mut symbols = vec![1; nodes];
    symbols[0] = 0;
    symbols
}

/// F(A, F(A, ...)).
fn right_leaning(leaves: usize) -> Vec<u16> {
    [vec![A; leaves], vec![F; leaves - 1]].concat()
}

/// F(F(..., A), A).
fn left_leaning(leaves: usize) -> Vec<u16> {
    [vec![A], [A, F].repeat(leaves - 1)].concat()
}

/// The full tree of a node and a leaf.
fn full(node: u16, rank: usize, leaf: u16, height: u32) -> Vec<u16> {
    if height == 0 {
        return vec![leaf];
    }
    let mut symbols = full(node, rank, leaf, height - 1).repeat(rank);
    symbols.push(node);
    symbols
}

/// So many leaves A with these symbols behind them.
fn leaves(count: usize, behind: &[u16]) -> Vec<u16> {
    [&vec![A; count], behind].concat()
}

/// The nodes that make one tree of so many.
fn join(trees: usize) -> Vec<u16> {
    [vec![H; (trees - 1) / 7], vec![F; (trees - 1) % 7]].concat()
}

pub fn all() -> Vec<Case> {
    let mut cases = Cases(Vec::new());
    cases.examples();
    cases.not_a_tree();
    cases.unknown_symbols();
    cases.unbalanced();
    cases.limits();
    cases.order_of_causes();
    cases.refused_tables();
    cases.order_of_children();
    cases.shapes();
    cases.runs();
    cases.finals();
    cases.edges();
    cases.subtrees();
    cases.large_subtrees();
    cases.counts();
    cases.random();
    cases.0
}

struct Cases(Vec<Case>);

impl Cases {
    fn add(&mut self, name: impl Into<String>, answer: Due, table: &[u8], tree: &[u8]) {
        let after = match answer {
            Due::Accepted => [1, 0, 0],
            Due::Rejected(..) => [0, 1, 0],
            Due::Refused(_) => [0, 0, 1],
        };
        self.0.push(Case {
            name: name.into(),
            expected: Some(Expected { answer, after }),
            table: table.to_vec(),
            tree: tree.to_vec(),
            before: [0; 3],
        });
    }

    fn accepted(&mut self, name: impl Into<String>, table: &[u8], symbols: &[u16]) {
        self.add(name, Due::Accepted, table, &tree(symbols));
    }

    /// A tree that is not accepted, with the node and the size of the subtree.
    fn rejected(
        &mut self,
        name: impl Into<String>,
        (node, size): (usize, usize),
        table: &[u8],
        symbols: &[u16],
    ) {
        self.add(name, Due::Rejected(node, size), table, &tree(symbols));
    }

    /// A tree that is not accepted, though each of its nodes has a state.
    fn rejected_whole(&mut self, name: impl Into<String>, table: &[u8], symbols: &[u16]) {
        self.rejected(name, (symbols.len() - 1, symbols.len()), table, symbols);
    }

    fn refused(&mut self, name: impl Into<String>, number: u8, table: &[u8], symbols: &[u16]) {
        self.add(name, Due::Refused(number), table, &tree(symbols));
    }

    fn not_one(&mut self, name: impl Into<String>, tree: &[u8]) {
        self.add(name, Due::Refused(8), &bench(), tree);
    }

    fn examples(&mut self) {
        let t = &bench();
        self.accepted("bench-f-b-a", t, &[B, A, F]);
        self.rejected_whole("bench-a", t, &[A]);
        self.rejected("bench-f-of-f-a-a-and-a", (4, 5), t, &[A, A, F, A, F]);
        self.refused("bench-symbol-2-alone", 10, t, &[F]);
        self.refused("bench-empty-body", 10, t, &[]);
        self.refused("bench-symbol-3-alone", 9, t, &[3]);

        self.accepted("bench-f-a-a", t, &[A, A, F]);
        self.accepted("bench-f-a-b", t, &[A, B, F]);
        self.accepted("bench-f-b-b", t, &[B, B, F]);
        self.rejected_whole("bench-b", t, &[B]);
        self.rejected("bench-f-of-a-and-f-a-a", (4, 5), t, &[A, A, A, F, F]);
        self.rejected("bench-f-of-two-f", (6, 7), t, &[A, B, F, B, A, F, F]);
    }

    fn not_a_tree(&mut self) {
        let whole = tree(&[B, A, F]);
        self.not_one("no-bytes", &[]);
        for kept in 1..whole.len() {
            self.not_one(format!("tree-cut-to-{kept}-bytes"), &whole[..kept]);
        }
        self.not_one("two-trees", &whole.repeat(2));
        self.not_one("two-leaves-in-two-records", &tree(&[A]).repeat(2));
        self.not_one("an-empty-record-behind", &[whole.clone(), tree(&[])].concat());
        self.not_one("an-empty-record-before", &[tree(&[]), whole.clone()].concat());
        self.not_one("another-kind-behind", &[whole.clone(), record(4, &[])].concat());
        for byte in [0, 16, 255] {
            self.not_one(format!("byte-{byte}-behind"), &[&whole[..], &[byte]].concat());
        }
        self.not_one("two-bytes-behind", &[&whole[..], &[0, 0]].concat());
        self.not_one("a-node-behind", &[&whole[..], &[2, 0]].concat());
        self.not_one("a-bare-length-behind", &[&whole[..], &[2, 0, 0, 0]].concat());

        let lengths = [
            ("0", 0),
            ("1", 1),
            ("2", 2),
            ("one-less", 7),
            ("one-node-less", 6),
            ("one-more", 9),
            ("one-node-more", 10),
            ("second-byte-off", 264),
            ("third-byte-off", 65_544),
            ("fourth-byte-off", 16_777_224),
            ("top-bit", 2_147_483_656),
            ("wrapping-to-0", 4_294_967_292),
            ("wrapping-to-1", 4_294_967_293),
            ("largest", 4_294_967_295),
        ];
        for (what, length) in lengths {
            self.not_one(format!("tree-length-{what}"), &with_length(whole.clone(), length));
        }
        self.not_one("bare-length-0", &[0; 4]);
        self.not_one("bare-length-2", &[2, 0, 0, 0]);
        self.not_one("length-0-and-a-kind", &[0, 0, 0, 0, 16, 0]);
        self.not_one("length-1-and-a-kind", &[1, 0, 0, 0, 16, 0]);
        self.not_one("length-1-and-half-a-kind", &[1, 0, 0, 0, 16]);
        self.not_one("length-largest-and-a-kind", &[255, 255, 255, 255, 16, 0]);

        for kind in [0, 1, 2, 3, 4, 15, 17, 32, 272, 4096, 4112, 65_535] {
            self.not_one(format!("tree-of-kind-{kind}"), &with_kind(whole.clone(), kind));
        }
        self.not_one("empty-body-of-kind-17", &record(17, &[]));
        self.not_one("a-table-as-tree", &bench());

        self.not_one("body-of-1-byte", &record(16, &[0]));
        self.not_one("body-of-3-bytes", &record(16, &[0, 0, 0]));
        self.not_one("body-of-5-bytes", &record(16, &[1, 0, 0, 0, 2]));
        self.not_one("body-of-7-bytes", &record(16, &[1, 0, 0, 0, 2, 0, 0]));
    }

    fn unknown_symbols(&mut self) {
        let t = &bench();
        for symbol in [4, 255, 256, 257, 258, 512, 65_535] {
            self.refused(format!("symbol-{symbol}-of-3"), 9, t, &[symbol]);
            self.refused(format!("symbol-{symbol}-of-3-on-top"), 9, t, &[A, A, symbol]);
        }
        self.refused("symbol-3-on-top", 9, t, &[A, A, 3]);
        self.refused("symbol-3-first", 9, t, &[3, A, F]);
        self.refused("symbol-3-in-between", 9, t, &[A, 3, F]);
        self.refused("symbol-3-above-a-tree", 9, t, &[B, A, F, 3]);

        let bare = &table(1, &[], &[0], &[]);
        self.refused("no-symbols-and-symbol-0", 9, bare, &[0]);
        self.refused("no-symbols-and-symbol-65535", 9, bare, &[65_535]);
        self.refused("no-symbols-and-empty-body", 10, bare, &[]);
        self.add("no-symbols-and-no-bytes", Due::Refused(8), bare, &[]);
        let shortest = &table(0, &[], &[], &[]);
        self.refused("shortest-table-and-symbol-0", 9, shortest, &[0]);
        self.refused("shortest-table-and-empty-body", 10, shortest, &[]);
    }

    fn unbalanced(&mut self) {
        let t = &bench();
        self.refused("f-above-one-leaf", 10, t, &[A, F]);
        self.refused("f-before-its-leaves", 10, t, &[F, A, A]);
        self.refused("f-between-its-leaves", 10, t, &[A, F, A]);
        self.refused("f-twice-above-two-leaves", 10, t, &[A, A, F, F]);
        self.refused("f-missing-at-last", 10, t, &[A, A, F, A, A, F]);
        self.refused("two-leaves", 10, t, &[A, B]);
        self.refused("three-leaves", 10, t, &[A, B, A]);
        self.refused("a-tree-and-a-leaf", 10, t, &[B, A, F, A]);
        self.refused("a-leaf-and-a-tree", 10, t, &[A, B, A, F]);
        self.refused("a-hundred-leaves", 10, t, &[A; 100]);
        self.refused("64-leaves", 10, t, &[A; 64]);
        self.refused("65-leaves", 10, t, &[A; 65]);
        // 257 and 513 trees are left: one if they are counted in a byte.
        self.refused("257-leaves", 10, t, &[A; 257]);
        self.refused("513-leaves", 10, t, &[A; 513]);

        let every = &every_tree();
        self.accepted("h-above-8-leaves", every, &leaves(8, &[H]));
        self.refused("h-above-7-leaves", 10, every, &leaves(7, &[H]));
        self.refused("h-above-9-leaves", 10, every, &leaves(9, &[H]));
        self.refused("h-alone", 10, every, &[H]);
        self.refused("g-alone", 10, every, &[G]);
        self.accepted("g-above-a-leaf", every, &[A, G]);
        self.refused("g-above-two-leaves", 10, every, &[A, A, G]);
        self.accepted("h-above-other-nodes", every, &[A, G, A, A, A, F, A, A, A, A, B, G, G, H]);
        self.refused("h-above-two-h-only", 10, every, &leaves(8, &[H, A, A, H]));
    }

    fn limits(&mut self) {
        // 16,383 nodes above the leaf are 5,461 times three.
        self.accepted("16384-nodes", &thirds(0), &chain(16_384));
        self.refused("16385-nodes", 11, &thirds(1), &chain(16_385));

        let every = &every_tree();
        self.accepted("1024-waiting", every, &right_leaning(1024));
        self.refused("1025-waiting", 11, every, &right_leaning(1025));
        self.accepted("1024-leaves-below-h", every, &leaves(1024, &join(1024)));
        self.refused("1025-leaves-below-h", 11, every, &leaves(1025, &join(1025)));
        self.refused("1024-leaves-and-two-at-the-end", 10, every, &leaves(1024, &[H; 146]));
        self.refused("1025-leaves-and-three-at-the-end", 11, every, &leaves(1025, &[H; 146]));

        // A node of rank 1 leaves the number of waiting trees as it is.
        let stay = [vec![G; 3], join(1024)].concat();
        self.accepted("1024-waiting-four-times", every, &leaves(1024, &stay));
        let again = [vec![F, A], join(1024)].concat();
        self.accepted("1024-waiting-again", every, &leaves(1024, &again));
        let over = [vec![F, A, A], join(1025)].concat();
        self.refused("1024-waiting-then-1025", 11, every, &leaves(1024, &over));
        let fits = [left_leaning(9), leaves(1023, &join(1024))].concat();
        self.accepted("1024-waiting-with-a-tree-first", every, &fits);
        let late = [left_leaning(9), leaves(1024, &join(1025))].concat();
        self.refused("1025-waiting-with-a-tree-first", 11, every, &late);
    }

    fn order_of_causes(&mut self) {
        let t = &bench();
        let every = &every_tree();
        let odd = |symbols: &[u16]| record(16, &[&words(symbols)[..], &[0]].concat());
        let other = |symbols: &[u16]| with_kind(tree(symbols), 17);
        let behind = |symbols: &[u16]| [tree(symbols), tree(&[A])].concat();

        // 8 precedes all others.
        let flaws: [(&str, Vec<u16>); 5] = [
            ("unknown-symbol", vec![3]),
            ("unknown-symbol-at-last", vec![A, A, 3]),
            ("too-few", vec![F, A]),
            ("two-at-the-end", vec![A, A]),
            ("1025-leaves", vec![A; 1025]),
        ];
        for (flaw, symbols) in &flaws {
            self.not_one(format!("odd-and-{flaw}"), &odd(symbols));
            self.not_one(format!("of-kind-17-and-{flaw}"), &other(symbols));
            self.not_one(format!("two-records-and-{flaw}"), &behind(symbols));
        }
        self.not_one("odd-and-16385-nodes", &odd(&left_leaning(8193)));
        self.not_one("of-kind-17-and-16385-nodes", &other(&left_leaning(8193)));

        // Then the number of nodes.
        let many = |first: u16| [vec![first], left_leaning(8192), vec![A]].concat();
        self.refused("16385-nodes-and-unknown-symbol-first", 11, t, &many(3));
        self.refused("16385-nodes-and-too-few-first", 11, t, &many(F));

        // At one node 9 precedes 10 and 11.
        self.refused("unknown-symbol-without-leaves", 9, t, &[7]);
        self.refused("unknown-symbol-after-one-leaf", 9, t, &[A, 7]);
        self.refused("unknown-symbol-after-1024-leaves", 9, every, &leaves(1024, &[5]));
        // At the end 9 of the last node precedes 10.
        self.refused("unknown-symbol-last-and-two-at-the-end", 9, t, &[A, A, A, 3]);

        // The first node with a flaw decides.
        self.refused("unknown-symbol-then-too-few", 9, t, &[3, F]);
        self.refused("too-few-then-unknown-symbol", 10, t, &[F, 3]);
        self.refused("too-few-late-then-unknown-symbol", 10, t, &[A, A, F, F, 3]);
        self.refused("unknown-symbol-late-then-too-few", 9, t, &[A, A, F, 3, F]);
        self.refused("unknown-symbol-then-1025-leaves", 9, t, &[vec![3], vec![A; 1025]].concat());
        self.refused("too-few-then-1025-leaves", 10, t, &[vec![F], vec![A; 1025]].concat());
        self.refused("1025-leaves-then-unknown-symbol", 11, t, &leaves(1025, &[3]));
        let late = [join(1025), vec![F]].concat();
        self.refused("1025-leaves-then-too-few", 11, every, &leaves(1025, &late));

        // 11 at a node precedes 10 at the end.
        self.refused("1024-leaves-at-the-end", 10, t, &leaves(1024, &[]));
        self.refused("1025-leaves-at-the-end", 11, t, &leaves(1025, &[]));
    }

    fn refused_tables(&mut self) {
        let trees: [(&str, Vec<u8>); 5] = [
            ("a-tree", tree(&[B, A, F])),
            ("no-bytes", vec![]),
            ("an-odd-body", record(16, &[0])),
            ("an-unknown-symbol", tree(&[3])),
            ("too-few", tree(&[F])),
        ];
        for (number, table) in refused_tables() {
            for (what, tree) in &trees {
                let name = format!("table-refused-{number}-and-{what}");
                self.add(name, Due::Refused(number), &table, tree);
            }
        }
        self.add("a-tree-as-table", Due::Refused(2), &tree(&[B, A, F]), &tree(&[B, A, F]));
        self.add("table-and-tree-exchanged", Due::Refused(2), &tree(&[B, A, F]), &bench());
    }

    fn order_of_children(&mut self) {
        let two = &table(3, &[0, 0, 2], &[2], &[(A, 0, &[]), (B, 1, &[]), (F, 2, &[0, 1])]);
        self.accepted("only-f-a-b", two, &[A, B, F]);
        self.rejected("not-f-b-a", (2, 3), two, &[B, A, F]);
        self.rejected("not-f-a-a", (2, 3), two, &[A, A, F]);
        self.rejected("not-f-b-b", (2, 3), two, &[B, B, F]);
        let turned = &table(3, &[0, 0, 2], &[2], &[(A, 0, &[]), (B, 1, &[]), (F, 2, &[1, 0])]);
        self.accepted("only-f-b-a", turned, &[B, A, F]);
        self.rejected("not-f-a-b", (2, 3), turned, &[A, B, F]);

        let rules: [Rule; 4] = [(0, 0, &[]), (1, 1, &[]), (2, 2, &[]), (3, 3, &[0, 1, 2])];
        let three = &table(4, &[0, 0, 0, 3], &[3], &rules);
        self.accepted("children-0-1-2", three, &[0, 1, 2, 3]);
        for [x, y, z] in [[0, 2, 1], [1, 0, 2], [1, 2, 0], [2, 0, 1], [2, 1, 0]] {
            self.rejected(format!("children-{x}-{y}-{z}"), (3, 4), three, &[x, y, z, 3]);
        }

        let mut rules: Vec<Rule> = (0..8).map(|i| (i, i, &[][..])).collect();
        rules.push((8, 8, &[0, 1, 2, 3, 4, 5, 6, 7]));
        let eight = &table(9, &[0, 0, 0, 0, 0, 0, 0, 0, 8], &[8], &rules);
        self.accepted("eight-children-in-order", eight, &[0, 1, 2, 3, 4, 5, 6, 7, 8]);
        self.rejected("eight-children-turned", (8, 9), eight, &[7, 6, 5, 4, 3, 2, 1, 0, 8]);
        self.rejected("eight-children-one-place-on", (8, 9), eight, &[1, 2, 3, 4, 5, 6, 7, 0, 8]);
        for place in 0..7 {
            let mut symbols = [0, 1, 2, 3, 4, 5, 6, 7, 8];
            symbols.swap(place, place + 1);
            self.rejected(format!("eight-children-swapped-at-{place}"), (8, 9), eight, &symbols);
        }

        // Subtraction: only the order tells 2 - 1 from 1 - 2.
        let rules: [Rule; 5] =
            [(0, 1, &[]), (1, 2, &[]), (2, 1, &[2, 1]), (2, 0, &[1, 1]), (2, 0, &[2, 2])];
        let minus = &table(3, &[0, 0, 2], &[1], &rules);
        self.accepted("two-minus-one", minus, &[1, 0, 2]);
        self.rejected("one-minus-two", (2, 3), minus, &[0, 1, 2]);
        self.accepted("two-minus-two-minus-one", minus, &[1, 1, 0, 2, 2]);
        self.rejected("two-minus-two-then-minus-one", (4, 5), minus, &[1, 1, 2, 0, 2]);
    }

    fn shapes(&mut self) {
        // State 1 is for right-leaning trees, state 2 for left-leaning ones.
        let rules: [Rule; 5] =
            [(A, 0, &[]), (F, 1, &[0, 0]), (F, 1, &[0, 1]), (F, 2, &[0, 0]), (F, 2, &[2, 0])];
        let right = &table(3, &[0, 0, 2], &[1], &rules);
        let left = &table(3, &[0, 0, 2], &[2], &rules);
        self.accepted("right-leaning-by-right", right, &right_leaning(300));
        self.rejected_whole("right-leaning-by-left", left, &right_leaning(300));
        self.accepted("left-leaning-by-left", left, &left_leaning(300));
        self.rejected_whole("left-leaning-by-right", right, &left_leaning(300));
        self.accepted("two-leaves-lean-right", right, &right_leaning(2));
        self.accepted("two-leaves-lean-left", left, &left_leaning(2));
        self.rejected_whole("three-leaves-lean-right", left, &right_leaning(3));
        self.rejected_whole("three-leaves-lean-left", right, &left_leaning(3));
        self.rejected("four-leaves-lean-no-way", (6, 7), right, &full(F, 2, A, 2));
        self.rejected_whole("one-leaf-leans-no-way", left, &[A]);

        // The state of a full tree of rank 8 is its height; that of leaf 2 is 4.
        let rules: [Rule; 6] = [
            (0, 0, &[]),
            (1, 1, &[0; 8]),
            (1, 2, &[1; 8]),
            (1, 3, &[2; 8]),
            (2, 4, &[]),
            (1, 1, &[0, 0, 0, 0, 0, 0, 0, 4]),
        ];
        let heights = &table(5, &[0, 8, 0], &[3], &rules);
        let third = full(1, 8, 0, 3);
        assert_eq!(third.len(), 585);
        self.accepted("full-of-rank-8-and-height-3", heights, &third);
        self.rejected_whole("full-of-rank-8-and-height-2", heights, &full(1, 8, 0, 2));
        self.rejected_whole("full-of-rank-8-and-height-1", heights, &full(1, 8, 0, 1));
        let with_leaf = |place: usize| {
            let mut symbols = third.clone();
            assert_eq!(symbols[place], 0);
            symbols[place] = 2;
            symbols
        };
        self.rejected("full-with-another-leaf-first", (8, 9), heights, &with_leaf(0));
        self.rejected("full-with-another-leaf-in-between", (309, 9), heights, &with_leaf(301));
        self.accepted("full-with-another-leaf-eighth", heights, &with_leaf(7));
        self.accepted("full-with-another-leaf-at-last", heights, &with_leaf(581));
        self.refused("full-and-a-leaf", 10, heights, &[&third[..], &[0]].concat());
        self.refused("full-without-its-top", 10, heights, &third[..584]);

        // 146 nodes of rank 8, each the last or the first child of the next.
        let spine = |child: [u16; 8]| {
            table(2, &[0, 8], &[1], &[(0, 0, &[]), (1, 1, &[0; 8]), (1, 1, &child)])
        };
        let last = &spine([0, 0, 0, 0, 0, 0, 0, 1]);
        let first = &spine([1, 0, 0, 0, 0, 0, 0, 0]);
        let right_leaning = [vec![0; 7 * 146 + 1], vec![1; 146]].concat();
        let left_leaning = [vec![0], [0, 0, 0, 0, 0, 0, 0, 1].repeat(146)].concat();
        self.accepted("rank-8-last-child-by-last", last, &right_leaning);
        self.rejected("rank-8-last-child-by-first", (1024, 17), first, &right_leaning);
        self.accepted("rank-8-first-child-by-first", first, &left_leaning);
        self.rejected("rank-8-first-child-by-last", (16, 17), last, &left_leaning);

        let lengths =
            [(1, 0), (2, 1), (3, 2), (4, 0), (64, 0), (65, 1), (200, 1), (201, 2), (202, 0)];
        for (nodes, state) in lengths {
            self.accepted(format!("chain-of-{nodes}"), &thirds(state), &chain(nodes));
            let (name, other) = (format!("chain-of-{nodes}-elsewhere"), thirds((state + 1) % 3));
            self.rejected_whole(name, &other, &chain(nodes));
        }

        let constants = &table(2, &[0, 0, 0], &[1], &[(0, 0, &[]), (1, 1, &[])]);
        self.rejected_whole("rank-0-only-state-0", constants, &[0]);
        self.accepted("rank-0-only-state-1", constants, &[1]);
        self.rejected("rank-0-only-without-a-rule", (0, 1), constants, &[2]);
        self.refused("rank-0-only-twice", 10, constants, &[1, 1]);
        self.refused("rank-0-only-unknown", 9, constants, &[3]);
    }

    fn runs(&mut self) {
        // Only the run that starts in state 2 comes to state 6.
        let rules: [Rule; 7] = [
            (0, 0, &[]),
            (0, 1, &[]),
            (0, 2, &[]),
            (1, 3, &[0]),
            (1, 4, &[1]),
            (1, 5, &[2]),
            (1, 6, &[5]),
        ];
        let one_run = &table(7, &[0, 1], &[6], &rules);
        self.rejected_whole("one-run-too-low", one_run, &chain(2));
        self.accepted("one-run-of-three", one_run, &chain(3));
        self.rejected("one-run-too-high", (3, 4), one_run, &chain(4));

        // The third symbol from the top is 2.
        let rules: [Rule; 8] = [
            (0, 0, &[]),
            (1, 0, &[0]),
            (2, 0, &[0]),
            (2, 1, &[0]),
            (1, 2, &[1]),
            (2, 2, &[1]),
            (1, 3, &[2]),
            (2, 3, &[2]),
        ];
        let third = &table(4, &[0, 1, 1], &[3], &rules);
        self.accepted("third-from-top-2-1-1", third, &[0, 2, 1, 1]);
        self.rejected_whole("third-from-top-1-1-1", third, &[0, 1, 1, 1]);
        self.accepted("third-from-top-2-2-2", third, &[0, 2, 2, 2]);
        self.rejected_whole("third-from-top-1-2-2", third, &[0, 1, 2, 2]);
        self.accepted("third-from-top-1-2-2-1-2", third, &[0, 1, 2, 2, 1, 2]);
        self.rejected_whole("third-from-top-2-2-1-2-2", third, &[0, 2, 2, 1, 2, 2]);
        self.rejected_whole("third-from-top-2-2", third, &[0, 2, 2]);
        self.rejected_whole("third-from-top-none", third, &[0]);

        // All children must fit one rule.
        let rules: [Rule; 6] =
            [(0, 0, &[]), (1, 1, &[]), (2, 2, &[]), (3, 3, &[]), (4, 4, &[0, 1]), (4, 4, &[2, 3])];
        let both = &table(5, &[0, 0, 0, 0, 2], &[4], &rules);
        self.accepted("children-of-the-first-rule", both, &[0, 1, 4]);
        self.accepted("children-of-the-second-rule", both, &[2, 3, 4]);
        self.rejected("children-of-rules-1-and-2", (2, 3), both, &[0, 3, 4]);
        self.rejected("children-of-rules-2-and-1", (2, 3), both, &[2, 1, 4]);

        // Each leaf may be in either state; one choice for all has a run.
        let rules: [Rule; 3] = [(A, 0, &[]), (A, 1, &[]), (F, 1, &[0, 1])];
        let choices = &table(2, &[0, 0, 2], &[1], &rules);
        self.accepted("two-choices", choices, &right_leaning(2));
        self.accepted("many-choices-to-the-right", choices, &right_leaning(64));
        self.rejected("many-choices-to-the-left", (4, 5), choices, &left_leaning(64));

        // Rules in any order, and one of them twice.
        let rules: [Rule; 5] =
            [(F, 2, &[0, 1]), (B, 1, &[]), (F, 2, &[0, 1]), (A, 0, &[]), (B, 1, &[])];
        let mixed = &table(3, &[0, 0, 2], &[2], &rules);
        self.accepted("rules-in-any-order", mixed, &[A, B, F]);
        self.rejected("rules-in-any-order-turned", (2, 3), mixed, &[B, A, F]);

        let silent = &table(2, &[0, 1, 1], &[1], &[(0, 0, &[]), (1, 1, &[0])]);
        self.accepted("a-symbol-with-a-rule", silent, &[0, 1]);
        self.rejected("a-symbol-without-rules", (1, 2), silent, &[0, 2]);
        self.rejected("a-symbol-without-rules-below", (1, 2), silent, &[0, 2, 1]);
        self.rejected("a-symbol-without-rules-above", (2, 3), silent, &[0, 1, 2]);
        let back = &table(2, &[0, 1, 1], &[0, 1], &[(0, 0, &[]), (1, 1, &[0]), (2, 0, &[1])]);
        self.accepted("there-and-back", back, &[0, 1, 2]);
        self.rejected("lost-on-the-way", (1, 2), back, &[0, 2, 1]);
    }

    fn finals(&mut self) {
        let with_finals = |states: &[u16]| table(5, &[0, 0, 2], states, &BENCH);
        for (what, symbols) in [("a", vec![A]), ("f-b-a", vec![B, A, F])] {
            self.rejected_whole(format!("no-final-{what}"), &with_finals(&[]), &symbols);
            self.rejected_whole(format!("unreached-final-{what}"), &with_finals(&[4]), &symbols);
            self.accepted(format!("all-final-{what}"), &with_finals(&[0, 1, 2, 3, 4]), &symbols);
        }
        let all = &with_finals(&[0, 1, 2, 3, 4]);
        self.rejected("all-final-but-no-run", (4, 5), all, &[A, A, F, A, F]);
        self.accepted("final-0-a", &with_finals(&[0]), &[A]);
        self.rejected_whole("final-0-b", &with_finals(&[0]), &[B]);
        self.accepted("final-2-b", &with_finals(&[2]), &[B]);
        self.accepted("finals-1-and-4-a", &with_finals(&[1, 4]), &[A]);
        self.rejected_whole("finals-1-and-4-b", &with_finals(&[1, 4]), &[B]);
        self.accepted("finals-2-and-3-b", &with_finals(&[2, 3]), &[B]);

        let stateless = &table(0, &[0, 2], &[], &[]);
        self.rejected("no-states-leaf", (0, 1), stateless, &[0]);
        self.rejected("no-states-tree", (0, 1), stateless, &[0, 0, 1]);
        self.refused("no-states-unknown-symbol", 9, stateless, &[2]);
        self.refused("no-states-too-few", 10, stateless, &[1]);
        self.refused("no-states-empty-body", 10, stateless, &[]);
        let ruleless = &table(2, &[0, 2], &[0, 1], &[]);
        self.rejected("no-rules-leaf", (0, 1), ruleless, &[0]);
        self.rejected("no-rules-tree", (0, 1), ruleless, &[0, 0, 1]);
    }

    fn edges(&mut self) {
        // From word to word of a set of states.
        let states = [0, 63, 64, 127, 128, 191, 192, 255];
        let mut rules = vec![(0, 0, vec![])];
        rules.extend(states.windows(2).map(|pair| (1, pair[1], vec![pair[0]])));
        let rules: Vec<Rule> = rules.iter().map(|(s, t, c)| (*s, *t, &c[..])).collect();
        for (i, state) in states.into_iter().enumerate() {
            let edge = &table(256, &[0, 1], &[state], &rules);
            self.accepted(format!("state-{state}-at-its-height"), edge, &chain(i + 1));
            // The step more leads to a state that is not final, or at last to none.
            let name = format!("state-{state}-one-too-high");
            self.rejected(name, (i + 1, i + 2), edge, &chain(i + 2));
        }
        for target in [0, 1, 64, 65, 128, 192, 255] {
            for other in [0, 64, 128, 192, 255] {
                let single =
                    |from: u16| table(256, &[0, 1], &[200], &[(0, target, &[]), (1, 200, &[from])]);
                let name = format!("state-{other}-below-where-{target}-is");
                let due = if target == other { Due::Accepted } else { Due::Rejected(1, 2) };
                self.add(name, due, &single(other), &tree(&[0, 1]));
            }
        }
        let all: Vec<u16> = (0..256).collect();
        self.accepted("256-finals", &table(256, &[0], &all, &[(0, 255, &[])]), &[0]);

        let mut arity = [0; 256];
        arity[255] = 2;
        let rules: [Rule; 2] = [(254, 0, &[]), (255, 1, &[0, 0])];
        let symbols = &table(2, &arity, &[1], &rules);
        self.accepted("256-symbols-and-255-on-top", symbols, &[254, 254, 255]);
        self.rejected("256-symbols-and-another-leaf", (1, 1), symbols, &[254, 253, 255]);
        self.refused("256-symbols-and-256-on-top", 9, symbols, &[254, 254, 256]);
        self.refused("256-symbols-and-511-on-top", 9, symbols, &[254, 254, 511]);
        self.refused("256-symbols-and-255-alone", 10, symbols, &[255]);

        // 1,024 rules that count in 256 states: symbol s adds s.
        let steps: Vec<(u16, u16, [u16; 1])> = (0..1023_u16)
            .map(|i| (1 + i / 256, (i % 256 + i / 256 + 1) % 256, [i % 256]))
            .collect();
        let mut rules: Vec<Rule> = steps.iter().map(|(s, t, c)| (*s, *t, &c[..])).collect();
        rules.push((0, 0, &[]));
        let counting = &table(256, &[0, 1, 1, 1, 1], &[255], &rules);
        let sum = [vec![0], vec![4; 60], vec![3; 4], vec![1; 3]].concat();
        self.accepted("1024-rules", counting, &sum);
    }

    fn subtrees(&mut self) {
        let t = &bench();
        self.rejected("bench-three-f-to-the-left", (4, 5), t, &[A, A, F, A, F, B, F]);
        self.rejected("bench-three-f-to-the-right", (5, 5), t, &[A, A, A, A, F, F, F]);
        self.rejected("bench-f-of-f-a-a-twice", (6, 7), t, &[A, A, F, A, A, F, F]);
        let both = [A, A, F, A, F, A, A, A, F, F, F];
        self.rejected("bench-two-without-states", (4, 5), t, &both);
        self.rejected("no-states-one-symbol", (0, 1), &table(0, &[0], &[], &[]), &[0]);

        // No accepted tree needs state 1, which the reduced table is without.
        let rules: [Rule; 3] = [(0, 0, &[]), (1, 1, &[]), (2, 1, &[1])];
        self.rejected_whole("b-has-a-state", &table(2, &[0, 0, 1], &[0], &rules), &[1, 2]);
        let reduced = table(1, &[0, 0, 1], &[0], &rules[..1]);
        self.rejected("b-has-no-state-when-reduced", (0, 1), &reduced, &[1, 2]);

        // The bench table with G, H, C, D and E, which have no rule there.
        let wider = &table(5, &[0, 0, 2, 8, 1, 0, 1, 2], &[3], &BENCH);
        self.rejected("c-alone", (0, 1), wider, &[C]);
        self.rejected("c-first", (0, 1), wider, &[C, A, F]);
        self.rejected("c-second", (1, 1), wider, &[A, C, F]);
        self.rejected("c-twice", (0, 1), wider, &[C, C, F]);
        self.rejected("c-inside", (3, 1), wider, &[A, A, F, C, F]);
        self.rejected("c-deep-inside", (2, 1), wider, &[A, B, C, F, F, A, F]);
        self.rejected("c-below-nodes-that-fit", (0, 1), wider, &[C, A, F, B, F]);
        // The first in postfix order is not the smallest.
        self.rejected("c-behind-a-larger-one", (4, 5), wider, &[A, A, F, A, F, C, F]);
        self.rejected("c-before-a-larger-one", (0, 1), wider, &[C, A, A, F, A, F, F]);
        self.rejected("g-on-top", (1, 2), wider, &[A, G]);
        self.rejected("g-twice", (1, 2), wider, &[A, G, B, G, F]);
        self.rejected("g-above-g", (1, 2), wider, &[A, G, G]);
        self.rejected("g-above-f", (4, 4), wider, &[A, A, B, F, G, F]);
        self.rejected("e-on-top", (4, 5), wider, &[A, B, A, F, E]);
        self.rejected("h-on-top", (8, 9), wider, &[A, B, A, B, A, B, A, B, H]);
        let inside = [B, A, A, A, A, A, A, A, A, A, F, H, F];
        self.rejected("h-inside", (11, 11), wider, &inside);
        self.rejected("h-above-c-first", (0, 1), wider, &[C, A, A, A, A, A, A, A, H]);
        self.rejected("h-above-c-last", (7, 1), wider, &[A, A, A, A, A, A, A, C, H]);
    }

    fn large_subtrees(&mut self) {
        let ranks = [0, 0, 2, 8, 1, 0, 1, 2];
        let most = &table(1, &ranks, &[0], &EVERY);
        for nodes in [63, 64, 65] {
            let first = [vec![C], vec![G; nodes - 1]].concat();
            self.rejected(format!("first-of-{nodes}"), (0, 1), most, &first);
            let last = [vec![A], vec![G; nodes - 2], vec![D]].concat();
            self.rejected(format!("last-of-{nodes}"), (nodes - 1, nodes), most, &last);
        }
        // 63 and 65 nodes, half of them waiting.
        for leaves in [32, 33] {
            let last_leaf = [vec![A; leaves - 1], vec![C], vec![F; leaves - 1]].concat();
            self.rejected(format!("last-of-{leaves}-leaves"), (leaves - 1, 1), most, &last_leaf);
            let first_node = [vec![A; leaves], vec![E], vec![F; leaves - 2]].concat();
            self.rejected(format!("first-above-{leaves}-leaves"), (leaves, 3), most, &first_node);
            let top = [vec![A; leaves], vec![F; leaves - 2], vec![E]].concat();
            let whole = (2 * leaves - 2, 2 * leaves - 1);
            self.rejected(format!("top-of-{leaves}-leaves"), whole, most, &top);
        }

        let first_leaf = [vec![C], vec![A; 1023], vec![F; 1023]].concat();
        self.rejected("1024-waiting-first-leaf", (0, 1), most, &first_leaf);
        let last_leaf = [vec![A; 1023], vec![C], vec![F; 1023]].concat();
        self.rejected("1024-waiting-last-leaf", (1023, 1), most, &last_leaf);
        let first_node = leaves(1024, &[vec![E], vec![F; 1022]].concat());
        self.rejected("1024-waiting-first-node", (1024, 3), most, &first_node);
        let top = leaves(1024, &[vec![F; 1022], vec![E]].concat());
        self.rejected("1024-waiting-top", (2046, 2047), most, &top);
        // 146 nodes of rank 8 leave two trees.
        let top = leaves(1024, &[vec![H; 146], vec![E]].concat());
        self.rejected("1024-waiting-top-above-h", (1170, 1171), most, &top);
        let none_final = &table(1, &ranks, &[], &EVERY);
        self.rejected_whole("1024-waiting-none-final", none_final, &right_leaning(1024));

        let first = [vec![C], vec![G; 16_383]].concat();
        self.rejected("first-of-16384", (0, 1), most, &first);
        let last = [vec![A], vec![G; 16_382], vec![D]].concat();
        self.rejected("last-of-16384", (16_383, 16_384), most, &last);
        self.rejected_whole("16384-nodes-elsewhere", &thirds(1), &chain(16_384));
        // A full tree of rank 8 and height 4 has 4,681 nodes.
        let three = [full(H, 8, A, 4).repeat(3), vec![F, E]].concat();
        self.rejected("top-of-three-full-trees", (14_044, 14_045), most, &three);
        let second = [full(H, 8, A, 4), vec![D], full(H, 8, A, 4), vec![F]].concat();
        self.rejected("above-the-first-full-tree", (4_681, 4_682), most, &second);
    }

    fn counts(&mut self) {
        let answers: [(&str, Due, Vec<u8>); 3] = [
            ("accepted", Due::Accepted, tree(&[B, A, F])),
            ("rejected", Due::Rejected(0, 1), tree(&[A])),
            ("refused", Due::Refused(10), tree(&[F])),
        ];
        let rows: [(&str, Counts, [Counts; 3]); 7] = [
            ("1-2-3", [1, 2, 3], [[2, 2, 3], [1, 3, 3], [1, 2, 4]]),
            (
                "two-bytes-full",
                [65_535, 65_535, 65_535],
                [[65_536, 65_535, 65_535], [65_535, 65_536, 65_535], [65_535, 65_535, 65_536]],
            ),
            (
                "nearly-full",
                [FULL - 1, FULL - 1, FULL - 1],
                [
                    [FULL, FULL - 1, FULL - 1],
                    [FULL - 1, FULL, FULL - 1],
                    [FULL - 1, FULL - 1, FULL],
                ],
            ),
            ("all-full", [FULL; 3], [[FULL; 3]; 3]),
            ("accepted-full", [FULL, 5, 6], [[FULL, 5, 6], [FULL, 6, 6], [FULL, 5, 7]]),
            ("rejected-full", [4, FULL, 6], [[5, FULL, 6], [4, FULL, 6], [4, FULL, 7]]),
            ("refused-full", [4, 5, FULL], [[5, 5, FULL], [4, 6, FULL], [4, 5, FULL]]),
        ];
        for (what, before, afters) in rows {
            for ((word, answer, tree), after) in answers.iter().zip(afters) {
                self.0.push(Case {
                    name: format!("counts-{what}-{word}"),
                    expected: Some(Expected { answer: *answer, after }),
                    table: bench(),
                    tree: tree.clone(),
                    before,
                });
            }
        }
        // A refused table counts as a refused tree does.
        for (number, table) in refused_tables() {
            for (what, before, after) in
                [("7-8-9", [7, 8, 9], [7, 8, 10]), ("full", [0, 0, FULL], [0, 0, FULL])]
            {
                self.0.push(Case {
                    name: format!("counts-{what}-table-refused-{number}"),
                    expected: Some(Expected { answer: Due::Refused(number), after }),
                    table: table.clone(),
                    tree: tree(&[B, A, F]),
                    before,
                });
            }
        }
    }

    fn random(&mut self) {
        let mut random = Random::new(0x2545_f491_4f6c_dd1d);
        for i in 0..200 {
            let (arity, table) = random.dense_table();
            let tree = tree(&random.symbols(&arity));
            self.any(format!("random-tree-{i}"), table, tree, random.counts());
        }
        for i in 0..60 {
            let (arity, table) = random.dense_table();
            let tree = random.spoilt_tree(&arity);
            self.any(format!("spoilt-tree-{i}"), table, tree, random.counts());
        }
    }

    fn any(&mut self, name: String, table: Vec<u8>, tree: Vec<u8>, before: Counts) {
        self.0.push(Case { name, expected: None, table, tree, before });
    }
}
