//! Batches: the header, the spans, the answers of entries and the lines.

use crate::answer::{Answer, Refusal, Report};
use crate::call;

pub const MOST_BYTES: usize = 65_536;
pub const MOST_ENTRIES: usize = 64;

/// A batch whose header is accepted.
struct Batch<'a> {
    bytes: &'a [u8],
    count: usize,
}

impl<'a> Batch<'a> {
    fn read(bytes: &'a [u8]) -> Result<Batch<'a>, Refusal> {
        let refused = Err(Refusal::plain(1));
        if bytes.len() > MOST_BYTES {
            return refused;
        }
        let Some(count) = number_at(bytes, 0) else {
            return refused;
        };
        if count == 0 || count > MOST_ENTRIES as u64 {
            return refused;
        }
        let count = count as usize;
        if header_length(count) > bytes.len() {
            return refused;
        }
        Ok(Batch { bytes, count })
    }

    /// The part that an entry names, or refusal 2.
    fn part(&self, entry: usize) -> Result<&'a [u8], Refusal> {
        self.span(entry).ok_or(Refusal::plain(2))
    }

    fn span(&self, entry: usize) -> Option<&'a [u8]> {
        if entry >= self.count {
            return None;
        }
        let offset = number_at(self.bytes, 4 + 8 * entry)?;
        let length = number_at(self.bytes, 8 + 8 * entry)?;
        // Both are below 2 to the 32, so the sum is exact.
        let end = offset + length;
        if offset < header_length(self.count) as u64 || end > self.bytes.len() as u64 {
            return None;
        }
        self.bytes.get(offset as usize..end as usize)
    }

    fn answer(&self, entry: usize) -> Answer {
        match self.part(entry) {
            Ok(part) => call::replay(part),
            Err(refusal) => Answer::refused(refusal),
        }
    }
}

/// The length of a header of `count` entries.
pub fn header_length(count: usize) -> usize {
    4 + 8 * count
}

/// The answer of one entry of a batch.
pub fn entry(bytes: &[u8], number: usize) -> Answer {
    match Batch::read(bytes) {
        Ok(batch) => batch.answer(number),
        Err(refusal) => Answer::refused(refusal),
    }
}

/// The lines that the batch program prints.
pub fn lines(bytes: &[u8]) -> String {
    match Batch::read(bytes) {
        Ok(batch) => (0..batch.count)
            .map(|entry| format!("{entry} {}\n", batch.answer(entry)))
            .collect(),
        Err(_) => String::from("refused 1\n"),
    }
}

/// Writes the lines into a buffer; the text's length is answered as steps.
pub fn write_lines(bytes: &[u8], buffer: &mut [u8]) -> Answer {
    let text = lines(bytes);
    match call::write_start(buffer, text.as_bytes()) {
        Ok(()) => Answer::accepted(text.len(), Report::NONE),
        Err(refusal) => Answer::refused(refusal),
    }
}

/// The four-byte number that starts at a place, high byte first.
fn number_at(bytes: &[u8], start: usize) -> Option<u64> {
    let four = bytes.get(start..start + 4)?;
    Some(
        four.iter()
            .fold(0, |number, &byte| number * 256 + u64::from(byte)),
    )
}
