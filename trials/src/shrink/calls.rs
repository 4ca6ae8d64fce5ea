use crate::Call;
use crate::library::{
    CHECK_COUNTS, CHECK_NUMBERS, COMPARE_NUMBERS, JUDGE_NUMBERS, REDUCE_NUMBERS, RELATE_NUMBERS,
    REPORT_NUMBERS,
};

/// Calls with one thing plainer: an array of the length that is needed, an
/// output nearer to the result, lower states and counts, less behind a table.
pub fn plainer(call: &Call) -> Vec<Call> {
    match *call {
        Call::Judge { .. } => vec![Call::Judge { numbers: JUDGE_NUMBERS }],
        Call::Check { ref counts, ref tree, numbers } => {
            let check = |counts, numbers| Call::Check { counts, tree: tree.clone(), numbers };
            let plainer = plainer_counts(counts).into_iter().map(|counts| check(counts, numbers));
            plainer.chain([check(counts.clone(), CHECK_NUMBERS)]).collect()
        }
        Call::Relate { room, numbers } => {
            let rooms = nearer(room).map(|room| Call::Relate { room, numbers });
            rooms.chain([Call::Relate { room, numbers: RELATE_NUMBERS }]).collect()
        }
        Call::Compare { q, r, numbers } => {
            let lower = lower(q).map(|q| (q, r)).chain(lower(r).map(|r| (q, r)));
            let pairs = lower.map(|(q, r)| Call::Compare { q, r, numbers });
            pairs.chain([Call::Compare { q, r, numbers: COMPARE_NUMBERS }]).collect()
        }
        Call::Reduce { room, numbers } => {
            let rooms = nearer(room).map(|room| Call::Reduce { room, numbers });
            rooms.chain([Call::Reduce { room, numbers: REDUCE_NUMBERS }]).collect()
        }
        Call::Report { length, room, numbers } => {
            let less = lower(length).map(|length| Call::Report { length, room, numbers });
            let rooms = nearer(room).map(|room| Call::Report { length, room, numbers });
            let needed = Call::Report { length, room, numbers: REPORT_NUMBERS };
            less.chain(rooms).chain([needed]).collect()
        }
    }
}

fn plainer_counts(counts: &[u32]) -> Vec<Vec<u32>> {
    let mut needed = counts.to_vec();
    needed.resize(CHECK_COUNTS, 0);
    let without = |at: usize| {
        let mut counts = counts.to_vec();
        counts[at] = 0;
        counts
    };
    [needed].into_iter().chain((0..counts.len()).map(without)).collect()
}

fn lower(number: usize) -> impl Iterator<Item = usize> {
    [0, number / 2, number.saturating_sub(1)].into_iter().filter(move |&less| less < number)
}

fn nearer(room: isize) -> impl Iterator<Item = isize> {
    let rooms = [0, room / 2, room - room.signum()];
    rooms.into_iter().filter(move |&nearer| nearer != room)
}
