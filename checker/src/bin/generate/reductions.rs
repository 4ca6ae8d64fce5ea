//! Tables to be reduced, and once more, and to be reported on.

mod cases;

use checker::{Change, MAX_INPUT, Reduced, Refusal, reduce, report, report_on};

use crate::suite::{FILL, Suite, checksum, line, sized};
use crate::tables::LONGEST;
use cases::{Case, Expected};

/// The longest output of a case.
const LONGEST_OUTPUT: usize = 27_500;

pub fn suite() -> Suite {
    let mut suite = Suite::default();
    for Case { name, expected, table, room } in cases::all() {
        let (answer, out) = reduced(&table, room);
        let mut lines = lines(answer, &out);
        if let Some(expected) = expected {
            let due = expected.as_ref().map(|due| due.answer(&table)).map_err(|&number| number);
            assert_eq!(answer.map_err(Refusal::number), due, "the answer for {name}");
            if let Ok(Expected { table: due, .. }) = expected {
                assert!(out.starts_with(&due), "the reduced table of {name}");
            }
        }
        match answer {
            Ok(Reduced { length, states, rules, .. }) => {
                assert!(length <= table.len(), "{name} grows");
                let (once, behind) = out.split_at(length);
                assert!(behind.iter().all(|&byte| byte == FILL), "the rest of {name} stays");
                let (again, twice) = reduced(once, length);
                assert_eq!(twice, once, "{name} reduced again");
                let Reduced { rounds, .. } = again.expect("a reduced table is a table");
                let same = |Change { new, .. }| Change { old: new, new };
                let due = Reduced { length, states: same(states), rules: same(rules), rounds };
                assert_eq!(again, Ok(due), "the answer for {name} reduced again");
                lines.push_str(&self::lines(again, &twice));
            }
            Err(_) => assert!(out.iter().all(|&byte| byte == FILL), "the output of {name} stays"),
        }
        lines.push_str("report\n");
        lines.push_str(&report_lines(&name, &table, answer));
        assert!(table.len() <= LONGEST, "the table of {name} is too long");
        assert!(room <= LONGEST_OUTPUT, "the output of {name} is too long");

        let input = [sized(&table), (room as u32).to_le_bytes().to_vec()].concat();
        suite.add(&name, input, &lines);
    }
    suite
}

/// The answer for a table, and an output of this size after it.
fn reduced(table: &[u8], room: usize) -> (Result<Reduced, Refusal>, Vec<u8>) {
    let mut out = vec![FILL; room];
    (reduce(table, &mut out), out)
}

fn lines(answer: Result<Reduced, Refusal>, out: &[u8]) -> String {
    let mut lines = report(answer);
    if let Ok(Reduced { length, .. }) = answer {
        line(&mut lines, "length", [length]);
    }
    line(&mut lines, "output", [checksum(out)]);
    lines
}

/// The report on a table, which this answer was given for.
fn report_lines(name: &str, table: &[u8], answer: Result<Reduced, Refusal>) -> String {
    let lines = report_on(table);
    match answer {
        // A report has no output that could be too short for the reduced table.
        Err(Refusal::ShortOutput) => {}
        // A report looks at the first bytes, which end within the last record.
        _ if table.len() > MAX_INPUT => assert_eq!(lines, "refused 1\n", "the report on {name}"),
        _ => assert_eq!(lines, report(answer), "the report on {name}"),
    }
    lines
}
