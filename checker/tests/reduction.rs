mod common;
mod random;

use std::collections::BTreeSet;

use checker::{
    Automaton, Change, MAX_INPUT, Reduced, Reduction, Refusal, Rule, Simulation, reduce, report,
    report_on,
};
use common::T;
use random::Random;

/// What T reduces to.
#[rustfmt::skip]
const T_REDUCED: [u8; 63] = [
    8, 0, 0, 0, 1, 0, 2, 0, 3, 0, 3, 0,
    5, 0, 0, 0, 2, 0, 0, 0, 2,
    4, 0, 0, 0, 3, 0, 1, 0,
    6, 0, 0, 0, 4, 0, 0, 0, 0, 0,
    6, 0, 0, 0, 4, 0, 1, 0, 0, 0,
    10, 0, 0, 0, 4, 0, 2, 0, 1, 0, 0, 0, 0, 0,
];

const T_ANSWER: Reduced = Reduced {
    length: 63,
    states: Change { old: 5, new: 2 },
    rules: Change { old: 8, new: 3 },
    rounds: 1,
};

const T_REPORT: &str = "reduced\nstates 5 2\nrules 8 3\nrounds 1\n";

#[test]
fn b1() {
    let mut out = [170; 63];
    assert_eq!(reduce(&T, &mut out), Ok(T_ANSWER));
    assert_eq!(out, T_REDUCED);
    assert_eq!(report(Ok(T_ANSWER)), T_REPORT);
    assert_eq!(report_on(&T), T_REPORT);
}

#[test]
fn b11() {
    let empty = Automaton { states: 0, ranks: vec![], finals: vec![], rules: vec![] }.encode();
    let mut out = [170; 24];
    let none = Change { old: 0, new: 0 };
    let answer = Reduced { length: 24, states: none, rules: none, rounds: 0 };
    assert_eq!(reduce(&empty, &mut out), Ok(answer));
    assert_eq!(out[..], empty);
    assert_eq!(report_on(&empty), "reduced\nstates 0 0\nrules 0 0\nrounds 0\n");
}

#[test]
fn bytes_behind_the_result_stay() {
    let mut out = [170; 125];
    assert_eq!(reduce(&T, &mut out), Ok(T_ANSWER));
    assert_eq!(out[..63], T_REDUCED);
    assert_eq!(out[63..], [170; 62]);
}

#[test]
fn a_short_output_stays() {
    let mut out = [170; 62];
    assert_eq!(reduce(&T, &mut out), Err(Refusal::ShortOutput));
    assert_eq!(out, [170; 62]);
    assert_eq!(report(Err(Refusal::ShortOutput)), "refused 13\n");
}

#[test]
fn the_table_is_judged_first() {
    for room in [0, 200] {
        let mut out = vec![170; room];
        assert_eq!(reduce(&T[..124], &mut out), Err(Refusal::BrokenRecord));
        assert!(out.iter().all(|&byte| byte == 170));
    }
    assert_eq!(report_on(&T[..124]), "refused 1\n");
    assert_eq!(report_on(&[]), "refused 2\n");
}

#[test]
fn the_report_judges_the_first_bytes() {
    let longest = Automaton {
        states: 256,
        ranks: vec![8; 256],
        finals: (0..256).collect(),
        rules: (0..1024).map(|i| Rule::new(i % 256, i / 4, &[i % 255; 8])).collect(),
    }
    .encode();
    assert_eq!(longest.len() + 1, MAX_INPUT);
    assert_eq!(report_on(&longest), "reduced\nstates 256 0\nrules 1024 0\nrounds 0\n");
    // A whole rule behind would be one too many, but it is cut.
    let more = [&longest[..], &[6, 0, 0, 0, 4, 0, 0, 0, 0, 0]].concat();
    assert_eq!(report_on(&more), "refused 1\n");
    assert_eq!(reduce(&more, &mut []), Err(Refusal::WrongRuleCount));
}

type Pairs = BTreeSet<(u16, u16)>;

/// The states to which a tree belongs.
fn with_trees(rules: &[Rule]) -> Vec<u16> {
    let mut found: Vec<u16> = Vec::new();
    loop {
        let ready = |rule: &&Rule| rule.children().iter().all(|child| found.contains(child));
        let fresh = |rule: &&Rule| !found.contains(&rule.target);
        match rules.iter().filter(ready).find(fresh) {
            Some(rule) => found.push(rule.target),
            None => return found,
        }
    }
}

/// Whether all children of `rule` are paired with those of `other`.
fn paired(pairs: &Pairs, rule: &Rule, other: &Rule) -> bool {
    rule.children().iter().zip(other.children()).all(|(&q, &r)| pairs.contains(&(q, r)))
}

/// The relation on these states, and the number of rounds.
fn relation(states: &[u16], rules: &[Rule]) -> (Pairs, usize) {
    let mut pairs: Pairs =
        states.iter().flat_map(|&q| states.iter().map(move |&r| (q, r))).collect();
    for rounds in 0.. {
        let mut next = Pairs::new();
        for &(q, r) in &pairs {
            let matched = |rule: &Rule| {
                let same = |other: &&Rule| other.target == r && other.symbol == rule.symbol;
                rules.iter().filter(same).any(|other| paired(&pairs, rule, other))
            };
            if rules.iter().filter(|rule| rule.target == q).all(matched) {
                next.insert((q, r));
            }
        }
        if next == pairs {
            return (pairs, rounds);
        }
        pairs = next;
    }
    unreachable!()
}

fn outdone(pairs: &Pairs, rule: &Rule, other: &Rule) -> bool {
    other.symbol == rule.symbol
        && other.target == rule.target
        && paired(pairs, rule, other)
        && rule.children().iter().zip(other.children()).any(|(q, r)| q != r)
}

fn renamed(rule: &Rule, name: impl Fn(u16) -> u16) -> Rule {
    let children: Vec<u16> = rule.children().iter().map(|&child| name(child)).collect();
    Rule::new(rule.symbol, name(rule.target), &children)
}

/// The six steps of document 01 one by one. The states keep their numbers up
/// to step 3, the groups theirs up to step 6.
fn six_steps(old: &Automaton) -> (Automaton, usize) {
    let mut states = with_trees(&old.rules);
    states.sort_unstable();
    let has = |state: &u16| states.contains(state);
    let mut rules = old.rules.clone();
    rules.retain(|rule| has(&rule.target) && rule.children().iter().all(has));
    let finals: Vec<u16> = old.finals.iter().copied().filter(has).collect();

    let (below, rounds) = relation(&states, &rules);

    let mut groups: Vec<Vec<u16>> = Vec::new();
    for &q in &states {
        let both = |r: &u16| below.contains(&(q, *r)) && below.contains(&(*r, q));
        match groups.iter_mut().find(|group| group.iter().all(both)) {
            Some(group) => group.push(q),
            None => groups.push(vec![q]),
        }
    }
    let number =
        |state: u16| groups.iter().position(|group| group.contains(&state)).unwrap() as u16;
    let mut joined: Vec<Rule> = Vec::new();
    for rule in &rules {
        let rule = renamed(rule, number);
        if !joined.contains(&rule) {
            joined.push(rule);
        }
    }
    let finals: BTreeSet<u16> = finals.into_iter().map(number).collect();
    let mut between = Pairs::new();
    for (g, group) in (0..).zip(&groups) {
        for (h, other) in (0..).zip(&groups) {
            let mut members = group.iter().flat_map(|&q| other.iter().map(move |&r| (q, r)));
            let first = below.contains(&(group[0], other[0]));
            assert!(members.all(|pair| below.contains(&pair) == first));
            if first {
                between.insert((g, h));
            }
        }
    }

    let best: Vec<Rule> = joined
        .iter()
        .filter(|rule| !joined.iter().any(|other| outdone(&between, rule, other)))
        .copied()
        .collect();

    let mut kept = finals.clone();
    loop {
        let mut more = kept.clone();
        for rule in best.iter().filter(|rule| kept.contains(&rule.target)) {
            more.extend(rule.children());
        }
        if more == kept {
            break;
        }
        kept = more;
    }

    let last = |group: u16| kept.iter().position(|&other| other == group).unwrap() as u16;
    let new = Automaton {
        states: kept.len(),
        ranks: old.ranks.clone(),
        finals: finals.into_iter().map(last).collect(),
        rules: best
            .iter()
            .filter(|rule| kept.contains(&rule.target))
            .map(|rule| renamed(rule, last))
            .collect(),
    };
    (new, rounds)
}

/// Whether two automata accept the same trees. Each pair that is found holds
/// the states of both to which some tree belongs, as bits.
fn same_trees(left: &Automaton, right: &Automaton) -> bool {
    let mut found: Vec<[u32; 2]> = Vec::new();
    loop {
        let before = found.len();
        for (symbol, &rank) in (0..).zip(&left.ranks) {
            for index in 0..before.pow(u32::from(rank)) {
                let mut rest = index;
                let mut children = Vec::new();
                for _ in 0..rank {
                    children.push(found[rest % before]);
                    rest /= before;
                }
                let side = |automaton: &Automaton, side: usize| {
                    let mut bits = 0;
                    for rule in automaton.rules.iter().filter(|rule| rule.symbol == symbol) {
                        let mut places = rule.children().iter().zip(&children);
                        if places.all(|(&q, child)| child[side] >> q & 1 == 1) {
                            bits |= 1 << rule.target;
                        }
                    }
                    bits
                };
                let pair = [side(left, 0), side(right, 1)];
                if !found.contains(&pair) {
                    found.push(pair);
                }
            }
        }
        if found.len() == before {
            break;
        }
    }
    let accepts =
        |automaton: &Automaton, bits: u32| automaton.finals.iter().any(|&q| bits >> q & 1 == 1);
    found.iter().all(|&[l, r]| accepts(left, l) == accepts(right, r))
}

/// Whether each state takes part in an accepted tree.
fn all_useful(automaton: &Automaton) -> bool {
    let live = with_trees(&automaton.rules);
    let mut useful: BTreeSet<u16> =
        automaton.finals.iter().copied().filter(|state| live.contains(state)).collect();
    loop {
        let mut more = useful.clone();
        for rule in &automaton.rules {
            if useful.contains(&rule.target) && rule.children().iter().all(|q| live.contains(q)) {
                more.extend(rule.children());
            }
        }
        if more == useful {
            return useful.len() == automaton.states;
        }
        useful = more;
    }
}

#[test]
fn random_automata() {
    let mut random = Random(0x9e37_79b9_7f4a_7c15);
    let mut smaller = 0;
    for _ in 0..10_000 {
        let old = random.automaton(6, 16);
        let reduction = Reduction::of(&old);
        let new = reduction.automaton();
        assert_eq!((new.clone(), reduction.rounds()), six_steps(&old), "{old:?}");
        assert!(same_trees(&old, new), "{old:?}");
        assert!(all_useful(new), "{old:?}");

        let states: Vec<u16> = (0..new.states as u16).collect();
        let (pairs, rounds) = relation(&states, &new.rules);
        assert_eq!(Simulation::of(new).rounds(), rounds);
        let both = |&(q, r): &(u16, u16)| q != r && pairs.contains(&(r, q));
        assert!(!pairs.iter().any(both), "{old:?}");
        for (i, rule) in new.rules.iter().enumerate() {
            assert!(!new.rules[..i].contains(rule), "{old:?}");
            assert!(!new.rules.iter().any(|other| outdone(&pairs, rule, other)), "{old:?}");
        }

        let table = new.encode();
        assert!(table.len() <= old.encoded_len());
        let mut again = vec![170; table.len()];
        let same = |count: usize| Change { old: count, new: count };
        let answer = Reduced {
            length: table.len(),
            states: same(new.states),
            rules: same(new.rules.len()),
            rounds,
        };
        assert_eq!(reduce(&table, &mut again), Ok(answer));
        assert_eq!(again, table);
        smaller += usize::from(new.states > 0 && new.states < old.states);
    }
    assert!(smaller > 2_500, "{smaller} become smaller");
}

#[test]
fn larger_random_automata() {
    let mut random = Random(0xd1b5_4a32_d192_ed03);
    for _ in 0..300 {
        let old = random.automaton(14, 50);
        let reduction = Reduction::of(&old);
        let (new, rounds) = six_steps(&old);
        assert_eq!(reduction.automaton(), &new, "{old:?}");
        assert_eq!(reduction.rounds(), rounds, "{old:?}");
        assert!(all_useful(&new), "{old:?}");
    }
}
