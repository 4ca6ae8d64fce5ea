use std::hint::black_box;

use trials::{Call, Library, Loan, Proved, Swift};

use crate::measure::{Comparison, Effort};
use crate::stack;
use crate::text::{rate, thousands, time};
use crate::workloads::{Timed, Workload};

pub fn list(workloads: &[Workload]) {
    for Workload { name, how, automaton, rounds, .. } in workloads {
        let states = thousands(automaton.states);
        let rules = thousands(automaton.rules.len());
        let symbols = automaton.ranks.len();
        let rounds = thousands(*rounds);
        println!(
            "- {name}: {how}; {states} states, {rules} rules, {symbols} symbols, {rounds} rounds"
        );
    }
    println!();
}

/// The table of times, a row for each workload and call.
pub fn times(workloads: &[Workload], effort: Effort) {
    println!("| workload | call | library | plain | ratio | library, nodes/s | plain, nodes/s |");
    println!("|---|---|---:|---:|---:|---:|---:|");
    for workload in workloads {
        workload.timed().iter().for_each(|timed| row(workload, timed, effort));
    }
    println!();
}

fn row(workload: &Workload, Timed { name, call, nodes }: &Timed, effort: Effort) {
    workload.compare_outcomes(call);
    let mut sides = (side(&Proved, workload, call), side(&Swift, workload, call));
    let comparison = Comparison::new(effort, [&mut sides.0, &mut sides.1]);
    let [library, plain] = [0, 1].map(|side| comparison.seconds(side));
    let rate = |seconds: f64| nodes.map_or(String::new(), |nodes| rate(nodes, seconds));
    println!(
        "| {} | {name} | {} | {} | {:.2} | {} | {} |",
        workload.name,
        time(library),
        time(plain),
        comparison.ratio(0, 1),
        rate(library),
        rate(plain),
    );
}

/// A call that is made again and again on memory of its own.
fn side(library: &dyn Library, workload: &Workload, call: &Call) -> impl FnMut() {
    let mut loan = workload.lend(call);
    move || {
        black_box(call.pass(library, black_box(&mut loan)));
    }
}

/// The table of what is gained where a table is reduced.
pub fn gains(table: &Workload, reduced: &Workload, effort: Effort) {
    println!("| {} | table | reduced | ratio |", table.name);
    println!("|---|---:|---:|---:|");
    for (name, [old, new]) in sizes(table, reduced) {
        let ratio = old as f64 / new as f64;
        println!("| {name} | {} | {} | {ratio:.1} |", thousands(old), thousands(new));
    }
    for (name, library) in [("library", &Proved as &dyn Library), ("plain", &Swift)] {
        for Timed { name: check, call, .. } in table.checks() {
            let mut sides = (side(library, table, &call), side(library, reduced, &call));
            let comparison = Comparison::new(effort, [&mut sides.0, &mut sides.1]);
            let [old, new] = [0, 1].map(|side| time(comparison.seconds(side)));
            println!("| {check}, {name} | {old} | {new} | {:.1} |", comparison.ratio(0, 1));
        }
    }
    println!();
}

fn sizes(table: &Workload, reduced: &Workload) -> [(&'static str, [usize; 2]); 3] {
    let both = [table, reduced];
    [
        ("states", both.map(|workload| workload.automaton.states)),
        ("rules", both.map(|workload| workload.automaton.rules.len())),
        ("bytes", both.map(|workload| workload.table.len())),
    ]
}

/// The table of stacks, the largest need of each call over the workloads.
pub fn stacks(workloads: &[Workload], effort: Effort) {
    let most = if effort.all_stacks { usize::MAX } else { 1000 };
    let workloads: Vec<_> = workloads.iter().filter(|workload| workload.rounds < most).collect();
    println!("| call | stack, bytes | stack, KiB | plain, bytes |");
    println!("|---|---:|---:|---:|");
    for name in Call::NAMES {
        let [library, plain] = [stack::of_library, stack::of_plain].map(|stack| {
            let needs = workloads.iter().map(|workload| largest_need(workload, name, stack));
            needs.max().unwrap_or(0)
        });
        let kibibytes = library as f64 / 1024.0;
        println!("| {name} | {} | {kibibytes:.1} | {} |", thousands(library), thousands(plain));
    }
}

/// The largest need of the calls of this name.
fn largest_need(workload: &Workload, name: &str, stack: fn(&Call, &mut Loan) -> usize) -> usize {
    let calls = workload.calls().into_iter().filter(|call| call.name() == name);
    calls.map(|call| stack(&call, &mut workload.lend(&call))).max().unwrap_or(0)
}
