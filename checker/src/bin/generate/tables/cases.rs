//! The cases, each with the verdict that document 01 gives it.

use crate::layout::{
    bench, finals, header, ranks, record, rule, with_body_length, with_kind, with_length, words,
};
use crate::random::Random;

pub struct Case {
    pub name: String,
    pub expected: Expected,
    pub bytes: Vec<u8>,
}

pub enum Expected {
    Table,
    Refused(u8),
    Any,
}

/// The parts of the base table; the last is what stands behind it.
const HEADER: usize = 0;
const RANKS: usize = 1;
const FINALS: usize = 2;
const RULE_0: usize = 3;
const RULE_1: usize = 4;
const BEHIND: usize = 5;
const NAMES: [&str; 6] = ["header", "ranks", "finals", "rule-0", "rule-1", "behind"];
const KINDS: [u16; 6] = [1, 2, 3, 4, 4, 4];

type Parts = [Vec<u8>; 6];

/// A table of 3 states, symbols of rank 0 and 2, and 2 rules.
fn base() -> Parts {
    [header(3, 2, 2), ranks(&[0, 2]), finals(&[0, 2]), rule(0, 1, &[]), rule(1, 2, &[0, 1]), vec![]]
}

/// The base table with another part.
fn with(place: usize, part: Vec<u8>) -> Parts {
    let mut parts = base();
    parts[place] = part;
    parts
}

/// The base table with two other parts.
fn with_two(first: (usize, Vec<u8>), second: (usize, Vec<u8>)) -> Parts {
    let mut parts = with(first.0, first.1);
    parts[second.0] = second.1;
    parts
}

/// These records of the base table, one behind the other.
fn only(places: &[usize]) -> Vec<Vec<u8>> {
    places.iter().map(|&place| base()[place].clone()).collect()
}

/// The base table up to a place, and this part there.
fn ends_with(place: usize, part: Vec<u8>) -> Vec<Vec<u8>> {
    let mut parts = base()[..place].to_vec();
    parts.push(part);
    parts
}

/// The record at a place of the base table; behind it, one rule too many.
fn record_at(place: usize) -> Vec<u8> {
    if place == BEHIND { rule(0, 0, &[]) } else { base()[place].clone() }
}

pub fn all() -> Vec<Case> {
    let mut cases = Cases(Vec::new());
    cases.examples();
    cases.broken_records();
    cases.kinds();
    cases.lengths();
    cases.limits();
    cases.ranges();
    cases.order_of_finals();
    cases.rule_counts();
    cases.order_in_one_record();
    cases.order_over_two_records();
    cases.walks();
    cases.single_bytes();
    cases.edges();
    cases.long_tables();
    cases.random();
    cases.0
}

struct Cases(Vec<Case>);

impl Cases {
    fn add(&mut self, name: impl Into<String>, expected: Expected, parts: &[Vec<u8>]) {
        self.0.push(Case { name: name.into(), expected, bytes: parts.concat() });
    }

    fn table(&mut self, name: impl Into<String>, parts: &[Vec<u8>]) {
        self.add(name, Expected::Table, parts);
    }

    fn refused(&mut self, name: impl Into<String>, number: u8, parts: &[Vec<u8>]) {
        self.add(name, Expected::Refused(number), parts);
    }

    fn examples(&mut self) {
        self.table("bench-table", &[bench()]);
        self.table(
            "bench-table-reduced",
            &[
                header(2, 3, 3),
                ranks(&[0, 0, 2]),
                finals(&[1]),
                rule(0, 0, &[]),
                rule(1, 0, &[]),
                rule(2, 1, &[0, 0]),
            ],
        );
        self.table("shortest-table", &[header(0, 0, 0), ranks(&[]), finals(&[])]);
        self.table("base-table", &base());
    }

    fn broken_records(&mut self) {
        for (place, name) in NAMES.iter().enumerate() {
            let whole = record_at(place);
            for kept in 1..whole.len() {
                let parts = ends_with(place, whole[..kept].to_vec());
                self.refused(format!("{name}-cut-to-{kept}-bytes"), 1, &parts);
            }
        }

        for (place, name) in NAMES.iter().enumerate() {
            let whole = record_at(place);
            let right = whole.len() as u32 - 4;
            let lengths = [
                ("0", 0),
                ("1", 1),
                ("largest", 4_294_967_295),
                ("wrapping-to-0", 4_294_967_292),
                ("wrapping-to-1", 4_294_967_293),
                ("top-bit", 2_147_483_648),
                ("second-byte-off", right + 0x100),
                ("third-byte-off", right + 0x1_0000),
                ("fourth-byte-off", right + 0x100_0000),
            ];
            for (what, length) in lengths {
                let part = with_length(whole.clone(), length);
                self.refused(format!("{name}-length-{what}"), 1, &with(place, part));
            }
        }

        // The length takes all that is left, or one byte more. The body of the
        // finals then holds the length of a rule, 6, as a state.
        for (place, number) in [(HEADER, 3), (RANKS, 3), (FINALS, 5), (RULE_0, 3)] {
            let left = base()[place..].concat().len() as u32;
            let part = with_length(record_at(place), left - 4);
            self.refused(format!("{}-length-just-fits", NAMES[place]), number, &with(place, part));
        }
        for (place, name) in NAMES.iter().enumerate() {
            let left = with(place, record_at(place))[place..].concat().len() as u32;
            let part = with_length(record_at(place), left - 3);
            self.refused(format!("{name}-length-one-over"), 1, &with(place, part));
        }

        self.refused("header-alone-just-fits", 2, &[header(0, 0, 0)]);
        self.refused("header-alone-one-over", 1, &[with_length(header(0, 0, 0), 9)]);
        self.refused("four-zero-bytes", 1, &[vec![0; 4]]);
        self.refused("six-zero-bytes", 1, &[vec![0; 6]]);
        self.refused("length-1-and-one-byte", 1, &[vec![1, 0, 0, 0, 1]]);
        self.refused("length-2-and-no-kind", 1, &[vec![2, 0, 0, 0]]);
        let reversed = with_length(header(3, 2, 2), 8_u32.swap_bytes());
        self.refused("length-in-other-byte-order", 1, &with(HEADER, reversed));
        self.refused("one-byte-behind", 1, &with(BEHIND, vec![0]));
        self.refused("one-byte-255-behind", 1, &with(BEHIND, vec![255]));
        self.refused("a-bare-length-behind", 1, &with(BEHIND, vec![2, 0, 0, 0]));
        self.refused("a-zero-length-behind", 1, &with(BEHIND, vec![0, 0, 0, 0]));
        self.refused(
            "shortest-table-and-a-byte",
            1,
            &[header(0, 0, 0), ranks(&[]), finals(&[]), vec![4]],
        );
    }

    fn kinds(&mut self) {
        for (place, name) in NAMES.iter().enumerate() {
            let due = KINDS[place];
            let mut kinds = vec![0, 1, 2, 3, 4, 5, 16, 260, 1024, 256 + due, 256 * due, 65_535];
            kinds.sort_unstable();
            kinds.dedup();
            for kind in kinds.into_iter().filter(|&kind| kind != due) {
                let part = with_kind(record_at(place), kind);
                self.refused(format!("{name}-of-kind-{kind}"), 2, &with(place, part));
            }
        }

        self.refused("no-bytes", 2, &[]);
        self.refused("header-only", 2, &only(&[HEADER]));
        self.refused("header-and-ranks-only", 2, &only(&[HEADER, RANKS]));
        self.refused("empty-header-and-ranks-only", 2, &[header(0, 0, 0), ranks(&[])]);
        self.refused("ranks-only", 2, &only(&[RANKS]));
        self.refused("header-missing", 2, &only(&[RANKS, FINALS, RULE_0, RULE_1]));
        self.refused("ranks-missing", 2, &only(&[HEADER, FINALS, RULE_0, RULE_1]));
        self.refused("finals-missing", 2, &only(&[HEADER, RANKS, RULE_0, RULE_1]));
        self.refused("header-twice", 2, &only(&[HEADER, HEADER, RANKS, FINALS, RULE_0, RULE_1]));
        self.refused("finals-before-ranks", 2, &only(&[HEADER, FINALS, RANKS, RULE_0, RULE_1]));
        self.refused("rule-before-finals", 2, &only(&[HEADER, RANKS, RULE_0, FINALS, RULE_1]));
        self.refused(
            "finals-between-rules",
            2,
            &only(&[HEADER, RANKS, FINALS, RULE_0, FINALS, RULE_1]),
        );
        self.refused("a-second-table-behind", 2, &[base().concat(), base().concat()]);
        self.refused("a-sheet-alone", 2, &[record(16, &[0, 0])]);
        self.refused("a-sheet-behind", 2, &with(BEHIND, record(16, &[0, 0])));
        self.refused("an-empty-kind-0-behind", 2, &with(BEHIND, record(0, &[])));
    }

    fn lengths(&mut self) {
        let wrong: [(usize, &[usize]); 5] = [
            (HEADER, &[0, 1, 2, 3, 4, 5, 7, 8, 12]),
            (RANKS, &[0, 1, 3, 4, 8]),
            (FINALS, &[1, 3, 5, 7]),
            (RULE_0, &[0, 1, 2, 3, 5, 6, 7, 8]),
            (RULE_1, &[0, 1, 2, 3, 4, 5, 6, 7, 9, 10, 11, 12]),
        ];
        for (place, lengths) in wrong {
            for &length in lengths {
                let part = with_body_length(&base()[place], length);
                let name = format!("{}-body-of-{length}-bytes", NAMES[place]);
                self.refused(name, 3, &with(place, part));
            }
        }

        let no_symbols = |ranks: Vec<u8>| [header(1, 0, 0), ranks, finals(&[])];
        self.refused("a-rank-without-symbols", 3, &no_symbols(ranks(&[0])));
        self.refused("two-ranks-without-symbols", 3, &no_symbols(ranks(&[0, 0])));
        let many_symbols = |count: usize| [header(0, 256, 0), ranks(&vec![0; count]), finals(&[])];
        self.refused("255-ranks-for-256-symbols", 3, &many_symbols(255));
        self.refused("257-ranks-for-256-symbols", 3, &many_symbols(257));
        self.refused("no-ranks-for-256-symbols", 3, &many_symbols(0));
        self.refused("one-odd-byte-as-finals", 3, &[header(1, 0, 0), ranks(&[]), record(3, &[0])]);

        let of_rank = |rank: u8, children: usize| {
            let children = vec![0; children];
            [header(1, 1, 1), ranks(&[rank]), finals(&[]), rule(0, 0, &children)]
        };
        self.refused("rank-0-with-8-children", 3, &of_rank(0, 8));
        self.refused("rank-1-without-children", 3, &of_rank(1, 0));
        self.refused("rank-8-with-7-children", 3, &of_rank(8, 7));
        self.refused("rank-8-with-9-children", 3, &of_rank(8, 9));
        self.refused("rank-8-with-16-children", 3, &of_rank(8, 16));
    }

    fn limits(&mut self) {
        let states = |n| [header(n, 0, 0), ranks(&[]), finals(&[])];
        for n in [1, 255, 256] {
            self.table(format!("{n}-states"), &states(n));
        }
        for n in [257, 258, 511, 512, 1024, 32_768, 65_535] {
            self.refused(format!("{n}-states"), 4, &states(n));
        }

        let symbols = |m: u16, r: usize| [header(0, m, 0), ranks(&vec![0; r]), finals(&[])];
        for m in [1, 255, 256] {
            self.table(format!("{m}-symbols"), &symbols(m, usize::from(m)));
        }
        for m in [257, 258, 512, 1024] {
            self.refused(format!("{m}-symbols"), 4, &symbols(m, usize::from(m)));
        }
        for m in [257, 65_535] {
            self.refused(format!("{m}-symbols-without-ranks"), 4, &symbols(m, 0));
        }

        let rules = |k: u16, count: usize| {
            let mut parts = vec![header(1, 1, k), ranks(&[0]), finals(&[])];
            parts.resize(3 + count, rule(0, 0, &[]));
            parts
        };
        self.table("256-rules", &rules(256, 256));
        self.refused("255-rules-for-256", 7, &rules(256, 255));
        self.refused("257-rules-for-256", 7, &rules(256, 257));
        for k in [1, 256, 1023, 1024] {
            self.refused(format!("{k}-rules-due-and-none"), 7, &rules(k, 0));
        }
        for k in [1025, 1026, 1279, 1280, 2048, 65_535] {
            self.refused(format!("{k}-rules-due-and-none"), 4, &rules(k, 0));
        }
        self.refused("1025-rules-due-and-one", 4, &rules(1025, 1));

        self.refused("all-three-above", 4, &[header(257, 257, 1025), ranks(&[]), finals(&[])]);
        self.refused("all-three-largest", 4, &[header(65_535, 65_535, 65_535)]);
        self.table(
            "256-states-and-256-symbols",
            &[header(256, 256, 0), ranks(&[0; 256]), finals(&[])],
        );

        for (place, name) in ["first", "middle", "last"].into_iter().enumerate() {
            let with_rank = |rank| {
                let mut all = [0, 1, 2];
                all[place] = rank;
                [header(0, 3, 0), ranks(&all), finals(&[])]
            };
            self.table(format!("{name}-rank-7"), &with_rank(7));
            self.table(format!("{name}-rank-8"), &with_rank(8));
            for rank in [9, 10, 16, 128, 255] {
                self.refused(format!("{name}-rank-{rank}"), 4, &with_rank(rank));
            }
        }
        self.table(
            "all-ranks-0-to-8",
            &[header(0, 9, 0), ranks(&[0, 1, 2, 3, 4, 5, 6, 7, 8]), finals(&[])],
        );
        self.refused(
            "all-ranks-0-to-9",
            4,
            &[header(0, 10, 0), ranks(&[0, 1, 2, 3, 4, 5, 6, 7, 8, 9]), finals(&[])],
        );
        let mut late = [8; 256];
        late[255] = 9;
        self.refused("symbol-255-of-rank-9", 4, &[header(0, 256, 0), ranks(&late), finals(&[])]);
    }

    fn ranges(&mut self) {
        // In the base table n = 3 and m = 2, and symbol 1 has rank 2.
        self.table("symbol-0-and-symbol-1", &with(RULE_0, rule(1, 1, &[0, 0])));
        for symbol in [2, 3, 255, 256, 257, 512, 65_535] {
            self.refused(format!("symbol-{symbol}-of-2"), 5, &with(RULE_0, rule(symbol, 1, &[])));
            self.refused(
                format!("late-symbol-{symbol}-of-2"),
                5,
                &with(RULE_1, rule(symbol, 2, &[0, 1])),
            );
        }
        self.table("target-0-of-3", &with(RULE_0, rule(0, 0, &[])));
        self.table("target-2-of-3", &with(RULE_0, rule(0, 2, &[])));
        self.table("first-child-2-of-3", &with(RULE_1, rule(1, 0, &[2, 0])));
        self.table("last-child-2-of-3", &with(RULE_1, rule(1, 0, &[0, 2])));
        for state in [3, 4, 255, 256, 257, 512, 65_535] {
            self.refused(format!("target-{state}-of-3"), 5, &with(RULE_0, rule(0, state, &[])));
            self.refused(
                format!("late-target-{state}-of-3"),
                5,
                &with(RULE_1, rule(1, state, &[0, 1])),
            );
            self.refused(
                format!("first-child-{state}-of-3"),
                5,
                &with(RULE_1, rule(1, 0, &[state, 0])),
            );
            self.refused(
                format!("last-child-{state}-of-3"),
                5,
                &with(RULE_1, rule(1, 0, &[0, state])),
            );
            self.refused(format!("only-final-{state}-of-3"), 5, &with(FINALS, finals(&[state])));
            self.refused(format!("last-final-{state}-of-3"), 5, &with(FINALS, finals(&[0, state])));
        }
        for state in 0..3 {
            self.table(format!("only-final-{state}-of-3"), &with(FINALS, finals(&[state])));
        }
        self.table("no-finals", &with(FINALS, finals(&[])));
        self.table("all-finals", &with(FINALS, finals(&[0, 1, 2])));

        let eight = |place: usize, state: u16| {
            let mut children = [0, 1, 2, 0, 1, 2, 0, 1];
            children[place] = state;
            [header(4, 1, 1), ranks(&[8]), finals(&[]), rule(0, 1, &children)]
        };
        for place in 0..8 {
            self.table(format!("child-{place}-of-8-is-3-of-4"), &eight(place, 3));
            self.refused(format!("child-{place}-of-8-is-4-of-4"), 5, &eight(place, 4));
            self.refused(format!("child-{place}-of-8-is-256-of-4"), 5, &eight(place, 256));
        }

        let none = |n: u16, m: u16, k: u16, r: &[u8], f: &[u16]| {
            vec![header(n, m, k), ranks(r), finals(f)]
        };
        let and = |mut parts: Vec<Vec<u8>>, part: Vec<u8>| {
            parts.push(part);
            parts
        };
        self.refused("a-final-without-states", 5, &none(0, 0, 0, &[], &[0]));
        self.refused("a-final-255-without-states", 5, &none(0, 1, 0, &[0], &[255]));
        self.refused("a-rule-without-symbols", 5, &and(none(1, 0, 1, &[], &[]), rule(0, 0, &[])));
        self.refused("a-rule-without-states", 5, &and(none(0, 1, 1, &[0], &[]), rule(0, 0, &[])));
        self.refused(
            "a-rule-with-a-child-without-states",
            5,
            &and(none(0, 1, 1, &[1], &[]), rule(0, 0, &[0])),
        );
        self.refused(
            "a-rule-without-states-and-symbols",
            5,
            &and(none(0, 0, 1, &[], &[]), rule(0, 0, &[])),
        );
    }

    fn order_of_finals(&mut self) {
        // The base table's rules name states below 3 only.
        let with_states =
            |n: u16, states: &[u16]| with_two((HEADER, header(n, 2, 2)), (FINALS, finals(states)));
        let all: Vec<u16> = (0..256).collect();
        let falling: Vec<u16> = (0..256).rev().collect();
        let mut twice = all.clone();
        twice.push(255);
        let mut beyond = all.clone();
        beyond.push(256);
        let mut one_pair = all.clone();
        one_pair.swap(128, 129);

        self.table("finals-rise-by-one", &with_states(6, &[2, 3, 4]));
        self.table("finals-rise-with-gaps", &with_states(6, &[0, 2, 5]));
        self.table("finals-254-and-255", &with_states(256, &[254, 255]));
        self.table("finals-0-and-255", &with_states(256, &[0, 255]));
        self.table("finals-all-256", &with_states(256, &all));
        self.refused("finals-equal", 6, &with_states(6, &[1, 1]));
        self.refused("finals-equal-zeros", 6, &with_states(6, &[0, 0]));
        self.refused("finals-fall", 6, &with_states(6, &[2, 1]));
        self.refused("finals-fall-to-zero", 6, &with_states(6, &[1, 0]));
        self.refused("finals-equal-at-first", 6, &with_states(6, &[1, 1, 2, 3]));
        self.refused("finals-equal-in-the-middle", 6, &with_states(6, &[0, 1, 1, 2]));
        self.refused("finals-equal-at-last", 6, &with_states(6, &[0, 1, 2, 2]));
        self.refused("finals-fall-at-first", 6, &with_states(6, &[1, 0, 2, 3]));
        self.refused("finals-fall-in-the-middle", 6, &with_states(6, &[0, 3, 2, 4]));
        self.refused("finals-fall-at-last", 6, &with_states(6, &[0, 1, 3, 2]));
        self.refused("finals-equal-but-not-neighbours", 6, &with_states(6, &[1, 2, 1]));
        self.refused("finals-255-and-0", 6, &with_states(256, &[255, 0]));
        self.refused("finals-255-twice", 6, &with_states(256, &[255, 255]));
        self.refused("finals-all-256-falling", 6, &with_states(256, &falling));
        self.refused("finals-all-256-but-one-pair", 6, &with_states(256, &one_pair));
        self.refused("finals-257-with-255-twice", 6, &with_states(256, &twice));
        self.refused("finals-257-up-to-256", 5, &with_states(256, &beyond));
        self.refused("finals-255-and-256", 5, &with_states(256, &[255, 256]));
        self.refused("finals-1-and-256", 5, &with_states(256, &[1, 256]));
        self.refused("finals-256-and-1", 5, &with_states(256, &[256, 1]));
    }

    fn rule_counts(&mut self) {
        let due = |k: u16| with(HEADER, header(3, 2, k));
        self.refused("no-rule-where-two-are-due", 7, &only(&[HEADER, RANKS, FINALS]));
        self.refused("one-rule-where-two-are-due", 7, &only(&[HEADER, RANKS, FINALS, RULE_0]));
        self.refused("two-rules-where-none-is-due", 7, &due(0));
        self.refused("two-rules-where-one-is-due", 7, &due(1));
        self.refused("two-rules-where-three-are-due", 7, &due(3));
        self.refused("two-rules-where-258-are-due", 7, &due(258));
        self.refused("two-rules-where-512-are-due", 7, &due(512));
        self.refused("two-rules-where-1024-are-due", 7, &due(1024));
        self.refused("one-rule-too-many", 7, &with(BEHIND, rule(0, 0, &[])));
        self.refused("last-rule-once-more", 7, &with(BEHIND, rule(1, 2, &[0, 1])));
        self.refused("two-rules-too-many", 7, &with(BEHIND, rule(0, 0, &[]).repeat(2)));

        let single = |k: u16, count: usize| {
            let mut parts = vec![header(1, 1, k), ranks(&[0]), finals(&[0])];
            parts.resize(3 + count, rule(0, 0, &[]));
            parts
        };
        self.table("no-rule-and-none-due", &single(0, 0));
        self.table("one-rule-and-one-due", &single(1, 1));
        self.refused("one-rule-and-none-due", 7, &single(0, 1));
        self.refused("no-rule-and-one-due", 7, &single(1, 0));
        self.refused("one-rule-and-two-due", 7, &single(2, 1));
        self.refused(
            "a-rule-behind-the-shortest-table",
            7,
            &[header(0, 0, 0), ranks(&[]), finals(&[]), rule(0, 0, &[])],
        );
    }

    fn order_in_one_record(&mut self) {
        let cut = |mut part: Vec<u8>| {
            part.pop();
            part
        };

        // 1 precedes all others.
        let broken = [
            (HEADER, "kind", record(2, &words(&[3, 2, 2]))),
            (HEADER, "length", record(1, &words(&[3, 2, 2, 0]))),
            (HEADER, "limit", header(257, 2, 2)),
            (RANKS, "kind", record(3, &[0, 2])),
            (RANKS, "length", ranks(&[0, 2, 0, 0])),
            (RANKS, "limit", ranks(&[9, 2])),
            (FINALS, "kind", record(4, &words(&[0, 2]))),
            (FINALS, "length", record(3, &[0, 0, 2, 0, 1, 0, 0])),
            (FINALS, "range", finals(&[3, 4])),
            (FINALS, "order", finals(&[2, 1, 0])),
            (RULE_0, "kind", record(3, &words(&[0, 1]))),
            (RULE_0, "short-body", record(4, &[0, 0, 1])),
            (RULE_0, "symbol", rule(2, 1, &[])),
            (RULE_0, "rank", rule(0, 1, &[0, 0])),
            (RULE_0, "target", rule(0, 3, &[])),
            (RULE_1, "child", rule(1, 2, &[3, 0])),
            (BEHIND, "kind", record(3, &words(&[0, 1]))),
            (BEHIND, "sheet", record(16, &words(&[0]))),
            (BEHIND, "rule", rule(0, 1, &[])),
            (BEHIND, "short-body", record(4, &[0, 0, 1])),
            (BEHIND, "symbol", rule(2, 1, &[])),
        ];
        for (place, what, part) in broken {
            let name = format!("{}-broken-and-wrong-{what}", NAMES[place]);
            self.refused(name, 1, &ends_with(place, cut(part)));
        }
        self.refused("too-few-rules-and-broken-at-the-end", 1, &ends_with(RULE_1, vec![6]));
        self.refused(
            "too-few-rules-and-length-1-at-the-end",
            1,
            &ends_with(RULE_1, vec![1, 0, 0, 0, 4, 0]),
        );
        self.refused("no-rules-and-broken-at-the-end", 1, &ends_with(RULE_0, vec![255]));
        self.refused("too-few-rules-and-another-kind", 2, &ends_with(RULE_1, finals(&[])));
        self.refused("no-rules-and-another-kind", 2, &ends_with(RULE_0, record(16, &[])));

        // 2 precedes 3 to 7.
        self.refused("header-kind-and-length", 2, &with(HEADER, record(2, &[3, 0, 2, 0])));
        self.refused("header-kind-and-empty-body", 2, &with(HEADER, record(4, &[])));
        self.refused("header-kind-and-limit", 2, &with(HEADER, record(2, &words(&[257, 2, 2]))));
        self.refused("ranks-kind-and-length", 2, &with(RANKS, record(3, &[0, 2, 0])));
        self.refused("ranks-kind-and-limit", 2, &with(RANKS, record(1, &[0, 9])));
        self.refused("finals-kind-and-length", 2, &with(FINALS, record(2, &[0, 0, 2])));
        self.refused("finals-kind-and-range", 2, &with(FINALS, record(4, &words(&[0, 3]))));
        self.refused("finals-kind-and-order", 2, &with(FINALS, record(4, &words(&[2, 0]))));
        self.refused("rule-kind-and-short-body", 2, &with(RULE_0, record(3, &[0, 0, 1])));
        self.refused("rule-kind-and-empty-body", 2, &with(RULE_0, record(3, &[])));
        self.refused("rule-kind-and-symbol", 2, &with(RULE_0, record(3, &words(&[2, 1]))));
        self.refused("rule-kind-and-rank", 2, &with(RULE_0, record(3, &words(&[0, 1, 1]))));
        self.refused("rule-kind-and-target", 2, &with(RULE_0, record(3, &words(&[0, 3]))));
        self.refused("rule-kind-and-child", 2, &with(RULE_1, record(3, &words(&[1, 2, 3, 0]))));
        self.refused("behind-kind-and-empty-body", 2, &with(BEHIND, record(3, &[])));
        self.refused("behind-kind-and-short-body", 2, &with(BEHIND, record(5, &[0, 0, 1])));
        self.refused("behind-kind-and-symbol", 2, &with(BEHIND, record(5, &words(&[2, 1]))));
        self.refused("behind-kind-and-rank", 2, &with(BEHIND, record(5, &words(&[0, 1, 1]))));
        self.refused("behind-kind-and-target", 2, &with(BEHIND, record(5, &words(&[0, 3]))));

        // 7 for a rule too many precedes 3 and 5.
        for length in 0..4 {
            let part = with_body_length(&rule(0, 0, &[]), length);
            self.refused(format!("a-rule-too-many-of-{length}-bytes"), 7, &with(BEHIND, part));
        }
        self.refused("a-rule-too-many-of-odd-length", 7, &with(BEHIND, record(4, &[0; 5])));
        self.refused("a-rule-too-many-and-symbol", 7, &with(BEHIND, rule(2, 0, &[])));
        self.refused("a-rule-too-many-and-rank", 7, &with(BEHIND, rule(1, 0, &[0])));
        self.refused("a-rule-too-many-and-target", 7, &with(BEHIND, rule(0, 3, &[])));
        self.refused("a-rule-too-many-and-child", 7, &with(BEHIND, rule(1, 0, &[0, 3])));
        self.refused("a-rule-too-many-and-nine-children", 7, &with(BEHIND, rule(1, 0, &[9; 9])));

        // 3 precedes 4.
        self.refused("header-short-and-limit", 3, &with(HEADER, record(1, &words(&[257, 2]))));
        self.refused(
            "header-long-and-states",
            3,
            &with(HEADER, record(1, &words(&[257, 2, 2, 0]))),
        );
        self.refused(
            "header-long-and-symbols",
            3,
            &with(HEADER, record(1, &words(&[3, 257, 2, 0]))),
        );
        self.refused(
            "header-long-and-rules",
            3,
            &with(HEADER, record(1, &words(&[3, 2, 1025, 0]))),
        );
        self.refused("header-odd-and-limit", 3, &with(HEADER, record(1, &[255; 5])));
        self.refused("ranks-short-and-limit", 3, &with(RANKS, ranks(&[9])));
        self.refused("ranks-long-and-limit", 3, &with(RANKS, ranks(&[9, 2, 0])));
        self.refused("ranks-long-and-limit-at-last", 3, &with(RANKS, ranks(&[0, 2, 9])));
        self.refused("ranks-long-and-all-above", 3, &with(RANKS, ranks(&[255; 7])));

        // For the finals 3 precedes 5 and 6, and 5 precedes 6.
        self.refused("finals-odd-and-exceed", 3, &with(FINALS, record(3, &[3, 0, 4])));
        self.refused("finals-odd-and-fall", 3, &with(FINALS, record(3, &[2, 0, 1, 0, 0])));
        self.refused("finals-odd-and-equal", 3, &with(FINALS, record(3, &[1, 0, 1, 0, 1])));
        self.refused("finals-odd-exceed-and-fall", 3, &with(FINALS, record(3, &[9, 0, 8, 0, 7])));
        self.refused("finals-fall-and-exceed", 5, &with(FINALS, finals(&[2, 1, 3])));
        self.refused("finals-equal-and-exceed", 5, &with(FINALS, finals(&[1, 1, 2, 256])));
        self.refused("finals-exceed-and-fall", 5, &with(FINALS, finals(&[3, 2])));
        self.refused("finals-exceed-then-fall-within", 5, &with(FINALS, finals(&[9, 1, 0])));
        self.refused("finals-exceed-and-equal", 5, &with(FINALS, finals(&[3, 3])));
        self.refused("finals-exceed-in-between-and-fall", 5, &with(FINALS, finals(&[0, 7, 1])));

        // A rule: short body (3), symbol (5), rank (3), states (5).
        for length in 1..4 {
            let wild = vec![255; length];
            self.refused(
                format!("rule-of-{length}-wild-bytes"),
                3,
                &with(RULE_0, record(4, &wild)),
            );
            let name = format!("late-rule-of-{length}-wild-bytes");
            self.refused(name, 3, &with(RULE_1, record(4, &wild)));
        }
        self.refused("rule-short-and-symbol", 3, &with(RULE_0, record(4, &words(&[2]))));
        self.refused(
            "rule-short-without-symbols",
            3,
            &[header(1, 0, 1), ranks(&[]), finals(&[]), record(4, &[0, 0])],
        );
        self.refused(
            "rule-long-without-symbols",
            5,
            &[header(1, 0, 1), ranks(&[]), finals(&[]), rule(0, 0, &[0])],
        );
        self.refused("rule-symbol-and-odd-length", 5, &with(RULE_0, record(4, &[2, 0, 1, 0, 0])));
        self.refused("rule-symbol-and-one-word-more", 5, &with(RULE_0, rule(2, 1, &[0])));
        self.refused("rule-symbol-and-nine-children", 5, &with(RULE_0, rule(2, 1, &[0; 9])));
        self.refused("rule-symbol-and-target", 5, &with(RULE_0, rule(2, 3, &[])));
        self.refused("rule-symbol-rank-and-target", 5, &with(RULE_1, rule(256, 3, &[3])));
        self.refused("rule-odd-and-target", 3, &with(RULE_0, record(4, &[0, 0, 3, 0, 0])));
        self.refused("rule-long-and-target", 3, &with(RULE_0, rule(0, 3, &[0])));
        self.refused("rule-long-and-child", 3, &with(RULE_0, rule(0, 1, &[3])));
        self.refused("rule-short-of-rank-and-target", 3, &with(RULE_1, rule(1, 3, &[0])));
        self.refused("rule-short-of-rank-and-child", 3, &with(RULE_1, rule(1, 2, &[3])));
        self.refused("rule-long-of-rank-and-child", 3, &with(RULE_1, rule(1, 2, &[3, 0, 0])));
        self.refused("rule-long-and-last-child", 3, &with(RULE_1, rule(1, 2, &[0, 0, 3])));
        self.refused(
            "rule-odd-of-rank-and-child",
            3,
            &with(RULE_1, record(4, &[1, 0, 2, 0, 3, 0, 3])),
        );
        self.refused("rule-bare-and-target", 3, &with(RULE_1, rule(1, 3, &[])));
        self.refused(
            "rule-length-without-states",
            3,
            &[header(0, 1, 1), ranks(&[1]), finals(&[]), rule(0, 0, &[])],
        );
        self.refused("rule-target-and-child", 5, &with(RULE_1, rule(1, 3, &[3, 3])));
    }

    fn order_over_two_records(&mut self) {
        // The flaws of a record, and the number of each.
        let flaws = |place: usize| {
            let broken = ("broken", 1, with_length(record_at(place), 4_294_967_294));
            let kind = ("kind", 2, with_kind(record_at(place), 9));
            let mut flaws = vec![broken, kind];
            flaws.extend(match place {
                HEADER => vec![
                    ("length", 3, record(1, &words(&[3, 2, 2, 0, 0]))),
                    ("limit", 4, header(257, 2, 2)),
                ],
                RANKS => vec![("length", 3, ranks(&[0, 2, 1])), ("limit", 4, ranks(&[0, 9]))],
                FINALS => vec![
                    ("length", 3, record(3, &[1, 0, 2])),
                    ("range", 5, finals(&[1, 3])),
                    ("order", 6, finals(&[2, 0])),
                ],
                RULE_0 => vec![
                    ("short", 3, record(4, &[1, 0])),
                    ("symbol", 5, rule(4, 1, &[])),
                    ("rank", 3, rule(0, 1, &[1])),
                    ("target", 5, rule(0, 5, &[])),
                ],
                RULE_1 => vec![
                    ("short", 3, record(4, &[1, 0, 1])),
                    ("symbol", 5, rule(4, 2, &[0, 1])),
                    ("rank", 3, rule(1, 2, &[1])),
                    ("target", 5, rule(1, 5, &[0, 1])),
                    ("child", 5, rule(1, 2, &[0, 5])),
                ],
                _ => vec![("extra", 7, rule(0, 2, &[]))],
            });
            flaws
        };

        for (first, name) in NAMES.iter().enumerate() {
            for (what, number, part) in flaws(first) {
                self.refused(format!("{name}-{what}-only"), number, &with(first, part.clone()));
                for (second, next) in NAMES.iter().enumerate().skip(first + 1) {
                    for (other, _, later) in flaws(second) {
                        let name = format!("{name}-{what}-then-{next}-{other}");
                        let parts = with_two((first, part.clone()), (second, later));
                        self.refused(name, number, &parts);
                    }
                }
            }
        }

        // Too few rules is found at the end only.
        for place in [RANKS, FINALS, RULE_0, RULE_1] {
            for (what, number, part) in flaws(place) {
                let name = format!("{}-{what}-then-too-few-rules", NAMES[place]);
                let parts = with_two((HEADER, header(3, 2, 3)), (place, part));
                self.refused(name, number, &parts);
            }
        }
        self.refused(
            "a-rule-too-many-then-broken",
            7,
            &with(BEHIND, [rule(0, 0, &[]), vec![6]].concat()),
        );
        self.refused(
            "a-rule-too-many-then-another-kind",
            7,
            &with(BEHIND, [rule(0, 0, &[]), record(16, &[])].concat()),
        );
        self.refused(
            "another-kind-behind-then-broken",
            2,
            &with(BEHIND, [record(16, &[]), vec![6]].concat()),
        );
        self.refused(
            "another-kind-behind-then-a-rule",
            2,
            &with(BEHIND, [record(16, &[]), rule(0, 0, &[])].concat()),
        );
        self.refused("header-limit-then-nothing", 4, &[header(257, 0, 0)]);
        self.refused("header-length-then-nothing", 3, &[record(1, &[])]);
        self.refused("ranks-length-then-nothing", 3, &[header(0, 1, 0), ranks(&[])]);
        self.refused("ranks-limit-then-nothing", 4, &[header(0, 1, 0), ranks(&[9])]);
        self.refused(
            "finals-order-then-no-rules",
            6,
            &[header(3, 0, 1), ranks(&[]), finals(&[1, 0])],
        );
        self.refused(
            "finals-range-then-no-rules",
            5,
            &[header(3, 0, 1), ranks(&[]), finals(&[1, 3])],
        );
    }

    fn walks(&mut self) {
        self.refused(
            "walk-five-empty-bodies",
            2,
            &[
                record(0, &[]),
                record(1, &[]),
                record(255, &[]),
                record(256, &[]),
                record(65_535, &[]),
            ],
        );
        self.refused(
            "walk-empty-bodies-then-broken",
            2,
            &[record(7, &[]), record(8, &[]), vec![2, 0, 0, 0, 9]],
        );
        self.refused("walk-a-body-of-255-bytes", 2, &[record(7, &[1; 255]), record(9, &[2])]);
        self.refused("walk-a-body-of-256-bytes", 2, &[record(7, &[1; 256]), record(9, &[2])]);
        self.refused("walk-a-record-of-length-256", 2, &[record(7, &[1; 254]), record(9, &[2])]);
        self.refused(
            "walk-records-in-a-body",
            2,
            &[record(7, &[record(1, &[0; 6]), record(2, &[])].concat()), record(9, &[2])],
        );
        self.refused("walk-a-wrong-rule-to-the-end", 5, &with(RULE_0, rule(9, 9, &[9, 9])));
        self.refused(
            "walk-over-a-wrong-rule-to-a-broken-end",
            5,
            &with_two((RULE_0, rule(9, 9, &[9, 9])), (BEHIND, vec![1, 0, 0, 0])),
        );
    }

    /// The base table with one byte set to 254.
    fn single_bytes(&mut self) {
        #[rustfmt::skip]
        let numbers = [
            // 254 states pass, 254 symbols have too few ranks, 254 rules are too few.
            1, 1, 1, 1, 2, 2, 0, 4, 3, 4, 7, 4,
            1, 1, 1, 1, 2, 2, 4, 4,
            1, 1, 1, 1, 2, 2, 5, 5, 5, 5,
            1, 1, 1, 1, 2, 2, 5, 5, 5, 5,
            1, 1, 1, 1, 2, 2, 5, 5, 5, 5, 5, 5, 5, 5,
        ];
        let whole = base().concat();
        assert_eq!(whole.len(), numbers.len());
        for (place, number) in numbers.into_iter().enumerate() {
            let mut bytes = whole.clone();
            bytes[place] = 254;
            let name = format!("base-table-byte-{place}-is-254");
            match number {
                0 => self.table(name, &[bytes]),
                _ => self.refused(name, number, &[bytes]),
            }
        }
    }

    fn edges(&mut self) {
        let states = |final_state: u16, target: u16, children: &[u16]| {
            vec![
                header(256, 2, 2),
                ranks(&[0, 2]),
                finals(&[final_state]),
                rule(0, 0, &[]),
                rule(1, target, children),
            ]
        };
        self.table("256-states-and-255-is-final", &states(255, 0, &[0, 0]));
        self.table("256-states-and-255-is-target", &states(0, 255, &[0, 0]));
        self.table("256-states-and-255-is-first-child", &states(0, 0, &[255, 0]));
        self.table("256-states-and-255-is-last-child", &states(0, 0, &[0, 255]));
        self.table("256-states-and-255-everywhere", &states(255, 255, &[255, 255]));
        self.table("256-states-and-1-everywhere", &states(1, 1, &[1, 1]));
        self.refused("256-states-and-256-is-final", 5, &states(256, 0, &[0, 0]));
        self.refused("256-states-and-256-is-target", 5, &states(0, 256, &[0, 0]));
        self.refused("256-states-and-256-is-first-child", 5, &states(0, 0, &[256, 0]));
        self.refused("256-states-and-256-is-last-child", 5, &states(0, 0, &[0, 256]));
        self.refused("256-states-and-65280-is-target", 5, &states(0, 65_280, &[0, 0]));

        let late =
            |n: u16, state: u16| [header(n, 1, 1), ranks(&[0]), finals(&[]), rule(0, state, &[])];
        self.table("255-states-and-254-is-target", &late(255, 254));
        self.refused("255-states-and-255-is-target", 5, &late(255, 255));
        self.table("one-state-and-0-is-target", &late(1, 0));
        self.refused("one-state-and-1-is-target", 5, &late(1, 1));

        let symbols = |m: u16, symbol: u16, children: &[u16]| {
            let mut all = vec![0; usize::from(m)];
            all[usize::from(m) - 1] = 3;
            [header(2, m, 1), ranks(&all), finals(&[1]), rule(symbol, 1, children)]
        };
        self.table("256-symbols-and-a-rule-of-255", &symbols(256, 255, &[0, 1, 0]));
        self.table("256-symbols-and-a-rule-of-254", &symbols(256, 254, &[]));
        self.table("256-symbols-and-a-rule-of-0", &symbols(256, 0, &[]));
        self.refused("256-symbols-and-a-rule-of-256", 5, &symbols(256, 256, &[0, 1, 0]));
        self.refused("256-symbols-and-a-rule-of-65280", 5, &symbols(256, 65_280, &[]));
        self.refused("255-symbols-and-a-rule-of-255", 5, &symbols(255, 255, &[]));
        self.refused("256-symbols-and-a-bare-rule-of-255", 3, &symbols(256, 255, &[]));
        self.table("one-symbol-and-its-rule", &symbols(1, 0, &[0, 1, 0]));

        let mut every = vec![header(1, 256, 256), ranks(&[0; 256]), finals(&[])];
        every.extend((0..256).map(|symbol| rule(symbol, 0, &[])));
        self.table("a-rule-for-each-of-256-symbols", &every);

        for rank in 0..=8_u8 {
            let children: Vec<u16> = (0..u16::from(rank)).collect();
            self.table(
                format!("a-rule-of-{rank}-children"),
                &[header(9, 1, 1), ranks(&[rank]), finals(&[8]), rule(0, 8, &children)],
            );
        }

        self.table(
            "a-rule-twice",
            &[header(2, 1, 2), ranks(&[1]), finals(&[1]), rule(0, 1, &[0]), rule(0, 1, &[0])],
        );
        self.table(
            "a-rule-twice-but-apart",
            &[
                header(2, 2, 3),
                ranks(&[1, 0]),
                finals(&[1]),
                rule(0, 1, &[0]),
                rule(1, 0, &[]),
                rule(0, 1, &[0]),
            ],
        );
        self.table(
            "children-in-both-orders",
            &[
                header(2, 2, 3),
                ranks(&[0, 2]),
                finals(&[]),
                rule(1, 0, &[0, 1]),
                rule(0, 1, &[]),
                rule(1, 0, &[1, 0]),
            ],
        );
        self.table("states-without-rules", &[header(4, 0, 0), ranks(&[]), finals(&[1, 3])]);
        self.table("symbols-without-states", &[header(0, 3, 0), ranks(&[3, 1, 0]), finals(&[])]);
        self.refused(
            "header-in-other-byte-order",
            4,
            &with(HEADER, record(1, &[0, 3, 0, 2, 0, 2])),
        );
        self.refused("finals-in-other-byte-order", 5, &with(FINALS, record(3, &[0, 1, 0, 2])));
        self.refused(
            "rule-in-other-byte-order",
            5,
            &with(RULE_1, record(4, &[0, 1, 0, 2, 0, 0, 0, 1])),
        );
        self.refused(
            "child-in-other-byte-order",
            5,
            &with(RULE_1, record(4, &[1, 0, 2, 0, 0, 0, 0, 1])),
        );
    }

    fn long_tables(&mut self) {
        let every: Vec<u16> = (0..256).collect();
        let mut table = vec![header(256, 256, 1024), ranks(&[8; 256]), finals(&every)];
        table.extend((0..1024_u32).map(|i| {
            let state =
                |place: u32| ((i * (2 * place + 5) + i / 256 * 31 + place * 29) % 256) as u16;
            let children: Vec<u16> = (1..=8).map(state).collect();
            rule((i * 77 % 256) as u16, state(0), &children)
        }));
        let length = table.concat().len();
        assert_eq!(length, 27_416);

        self.table("longest-table", &table);
        let mut cut = table.concat();
        cut.pop();
        self.refused("longest-table-without-its-last-byte", 1, &[cut]);
        let mut child = table.concat();
        child[length - 2..].copy_from_slice(&[0, 1]);
        self.refused("longest-table-with-last-child-256", 5, &[child]);
        let mut longer = table.clone();
        longer[0] = header(256, 256, 1025);
        self.refused("longest-table-with-1025-rules-due", 4, &longer);
        let mut more = table.clone();
        more.push(rule(255, 255, &[255; 8]));
        self.refused("longest-table-with-a-rule-behind", 7, &more);
        let mut byte = table;
        byte.push(vec![22]);
        self.refused("longest-table-with-a-byte-behind", 1, &byte);
    }

    fn random(&mut self) {
        let mut random = Random::new(0x9e37_79b9_7f4a_7c15);
        for i in 0..100 {
            let bytes = self.fresh(|| random.table());
            self.table(format!("random-table-{i}"), &[bytes]);
        }
        for i in 0..100 {
            let bytes = self.fresh(|| random.spoilt_table());
            self.add(format!("spoilt-table-{i}"), Expected::Any, &[bytes]);
        }
        for i in 0..10 {
            let bytes = self.fresh(|| random.bytes());
            self.add(format!("random-bytes-{i}"), Expected::Any, &[bytes]);
        }
        for i in 0..10 {
            let bytes = self.fresh(|| random.records());
            self.add(format!("random-records-{i}"), Expected::Any, &[bytes]);
        }
    }

    /// Draws until the bytes are those of no case before.
    fn fresh(&self, mut draw: impl FnMut() -> Vec<u8>) -> Vec<u8> {
        loop {
            let bytes = draw();
            if self.0.iter().all(|case| case.bytes != bytes) {
                return bytes;
            }
        }
    }
}
