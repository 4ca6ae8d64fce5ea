use crate::Refusal;

/// The first record of a stretch of bytes.
#[derive(Clone, Copy, Debug, PartialEq, Eq)]
pub struct Record<'a> {
    pub kind: u16,
    /// The number of bytes that the record takes.
    pub end: usize,
    pub body: &'a [u8],
}

/// Opens the first record of `bytes`, or answers `None` if nothing is left.
pub fn open(bytes: &[u8]) -> Result<Option<Record<'_>>, Refusal> {
    if bytes.is_empty() {
        return Ok(None);
    }
    first(bytes).map(Some).ok_or(Refusal::BrokenRecord)
}

fn first(bytes: &[u8]) -> Option<Record<'_>> {
    let (length, rest) = bytes.split_first_chunk::<4>()?;
    let length = usize::try_from(u32::from_le_bytes(*length)).ok()?;
    let (kind, body) = rest.get(..length)?.split_first_chunk::<2>()?;
    Some(Record { kind: u16::from_le_bytes(*kind), end: 4 + length, body })
}

/// The records of a stretch of bytes, one behind the other. A refusal is the
/// last item.
#[derive(Clone, Debug)]
pub struct Records<'a> {
    rest: &'a [u8],
}

impl<'a> Records<'a> {
    pub const fn new(bytes: &'a [u8]) -> Self {
        Self { rest: bytes }
    }
}

impl<'a> Iterator for Records<'a> {
    type Item = Result<Record<'a>, Refusal>;

    fn next(&mut self) -> Option<Self::Item> {
        let opened = open(self.rest).transpose()?;
        self.rest = match opened {
            Ok(record) => &self.rest[record.end..],
            Err(_) => &[],
        };
        Some(opened)
    }
}

impl std::iter::FusedIterator for Records<'_> {}

#[cfg(test)]
mod tests {
    use super::*;

    #[test]
    fn opens_a_record_and_says_where_it_ends() {
        let bytes = [5, 0, 0, 0, 4, 1, 7, 8, 9, 99];
        let record = Record { kind: 260, end: 9, body: &[7, 8, 9] };
        assert_eq!(open(&bytes), Ok(Some(record)));
    }

    #[test]
    fn a_body_may_be_empty() {
        let record = Record { kind: 3, end: 6, body: &[] };
        assert_eq!(open(&[2, 0, 0, 0, 3, 0]), Ok(Some(record)));
    }

    #[test]
    fn nothing_left_is_the_end() {
        assert_eq!(open(&[]), Ok(None));
    }

    #[test]
    fn broken_records_are_refused() {
        let broken: [&[u8]; 7] = [
            &[2],
            &[2, 0, 0],
            &[2, 0, 0, 0],
            &[2, 0, 0, 0, 3],
            &[0, 0, 0, 0, 3, 0],
            &[1, 0, 0, 0, 3, 0],
            &[255, 255, 255, 255, 3, 0],
        ];
        for bytes in broken {
            assert_eq!(open(bytes), Err(Refusal::BrokenRecord), "{bytes:?}");
        }
    }

    #[test]
    fn records_stop_at_the_first_that_does_not_open() {
        let bytes = [2, 0, 0, 0, 3, 0, 3, 0, 0, 0, 16, 0, 5, 1];
        let kinds: Vec<_> = Records::new(&bytes).map(|r| r.map(|r| r.kind)).collect();
        assert_eq!(kinds, [Ok(3), Ok(16), Err(Refusal::BrokenRecord)]);
    }
}
