//! What a program under test must write for a case.

use std::fmt::Write;

use checker::{Automaton, Records, Refusal};

use crate::suite::{FILL, checksum, line};

/// The lines of a case.
pub fn lines(bytes: &[u8], verdict: &Result<Automaton, Refusal>) -> String {
    let mut out = String::new();
    records(&mut out, bytes);
    match verdict {
        Ok(automaton) => table(&mut out, automaton),
        Err(refusal) => {
            // Judged, and decoded.
            line(&mut out, "refused", [refusal.number()]);
            line(&mut out, "refused", [refusal.number()]);
        }
    }
    out
}

fn records(out: &mut String, bytes: &[u8]) {
    let mut seen = Vec::new();
    let mut count = 0;
    let mut end = "end".to_string();
    for record in Records::new(bytes) {
        match record {
            Ok(record) => {
                count += 1;
                seen.extend(record.kind.to_le_bytes());
                seen.extend(record.body);
            }
            Err(refusal) => end = format!("refused {}", refusal.number()),
        }
    }
    writeln!(out, "records {count} {} {end}", checksum(&seen)).unwrap();
}

fn table(out: &mut String, automaton: &Automaton) {
    let Automaton { states, ranks, finals, rules } = automaton;
    line(out, "table", [*states, ranks.len(), rules.len()]);
    line(out, "ranks", ranks);
    line(out, "finals", finals);
    for rule in rules {
        line(out, "rule", [&rule.symbol, &rule.target].into_iter().chain(rule.children()));
    }

    let length = automaton.encoded_len();
    let mut buffer = vec![FILL; length + 16];
    assert_eq!(automaton.write(&mut buffer), Ok(length));
    assert_eq!(buffer[length..], [FILL; 16]);
    writeln!(out, "written {length} {}", checksum(&buffer)).unwrap();

    let mut short = vec![FILL; length - 1];
    let refusal = automaton.write(&mut short).expect_err("the output is too short");
    assert!(short.iter().all(|&byte| byte == FILL));
    writeln!(out, "short {} {}", refusal.number(), checksum(&short)).unwrap();
}
