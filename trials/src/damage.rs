use std::ops::Range;

use checker::Records;

use crate::layout::record;
use crate::random::Random;

/// Makes one to three changes to the bytes of a table or a tree.
pub fn damage(random: &mut Random, bytes: &mut Vec<u8>) {
    for _ in 0..random.between(1, 3) {
        match random.below(4) {
            0 => change_bytes(random, bytes),
            1 => change_records(random, bytes),
            2 => change_field(random, bytes),
            _ => change_word(random, bytes),
        }
    }
}

/// Where the whole records at the start of `bytes` stand.
pub fn spans(bytes: &[u8]) -> Vec<Range<usize>> {
    let ends = Records::new(bytes).map_while(Result::ok).scan(0, |end, record| {
        let start = *end;
        *end += record.end;
        Some(start..*end)
    });
    ends.collect()
}

fn change_bytes(random: &mut Random, bytes: &mut Vec<u8>) {
    let place = random.below(bytes.len() + 1);
    let end = (place + random.between(1, 3)).min(bytes.len());
    match random.below(5) {
        0 => bytes.truncate(place),
        1 => drop(bytes.drain(place..end)),
        2 => bytes.insert(place, random.byte()),
        3 => bytes.extend((0..random.between(1, 8)).map(|_| random.byte())),
        _ if place < bytes.len() => bytes[place] ^= 1 << random.below(8),
        _ => {}
    }
}

/// Leaves a record out, repeats one, or lets two change places.
fn change_records(random: &mut Random, bytes: &mut Vec<u8>) {
    let spans = spans(bytes);
    if spans.is_empty() {
        return;
    }
    let mut order: Vec<usize> = (0..spans.len()).collect();
    let (place, other) = (random.below(order.len()), random.below(order.len()));
    match random.below(3) {
        0 => drop(order.remove(place)),
        1 => order.insert(place, other),
        _ => order.swap(place, other),
    }
    let rest = bytes[spans[spans.len() - 1].end..].to_vec();
    let records = order.iter().flat_map(|&at| &bytes[spans[at].clone()]);
    *bytes = records.copied().chain(rest).collect();
}

/// Changes the length or the kind of a record, or its body's length together
/// with its length.
fn change_field(random: &mut Random, bytes: &mut Vec<u8>) {
    let spans = spans(bytes);
    if spans.is_empty() {
        return;
    }
    let Range { start, end } = spans[random.below(spans.len())].clone();
    match random.below(4) {
        0 => {
            let length = (end - start - 4) as u32;
            let any = random.draw() as u32;
            let length = random.pick(&[length + 1, length - 1, length + 2, 0, 1, 2, u32::MAX, any]);
            bytes[start..start + 4].copy_from_slice(&length.to_le_bytes());
        }
        1 => bytes[start + 4] = random.byte(),
        _ => {
            let kind = u16::from_le_bytes([bytes[start + 4], bytes[start + 5]]);
            let mut body = bytes[start + 6..end].to_vec();
            let longer = body.len() + random.between(1, 2);
            let shorter = body.len().saturating_sub(random.between(1, 4));
            body.resize(random.pick(&[longer, shorter]), 0);
            bytes.splice(start..end, record(kind, &body));
        }
    }
}

/// Changes two bytes of a body by one, to another two bytes of the table, or to
/// a number at a limit; in one of the first three records half of the time.
fn change_word(random: &mut Random, bytes: &mut [u8]) {
    let spans = spans(bytes);
    if spans.is_empty() {
        return;
    }
    let most = if random.one_in(2) { 3 } else { spans.len() };
    let span = &spans[random.below(spans.len().min(most))];
    let words = (span.len() - 6) / 2;
    if words == 0 {
        return;
    }
    let place = span.start + 6 + 2 * random.below(words);
    let word = u16::from_le_bytes([bytes[place], bytes[place + 1]]);
    let from = random.below(bytes.len() - 1);
    let other = u16::from_le_bytes([bytes[from], bytes[from + 1]]);
    let near = [word.wrapping_add(1), word.wrapping_sub(1), other];
    let limits = [0, 8, 9, 255, 256, 257, 1024, 1025, 65_535];
    let word = if random.one_in(3) { random.pick(&limits) } else { random.pick(&near) };
    bytes[place..place + 2].copy_from_slice(&word.to_le_bytes());
}
