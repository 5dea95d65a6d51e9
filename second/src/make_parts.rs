//! Files of lines calls and of entries asked for by number.

use std::io::{self, Write};

use crate::batch::{self, MOST_BYTES};
use crate::draft::BatchDraft;
use crate::make_batches;
use crate::paper;
use crate::random::Random;
use crate::record::{entry_record, lines_record};

/// The fixed cases, then random ones until there are `count` in all.
pub fn generate_lines(seed: u64, count: u64, out: &mut dyn Write) -> io::Result<()> {
    let mut random = Random::new(seed);
    let fixed = fixed_lines();
    for record in &fixed {
        out.write_all(record)?;
    }
    for _ in fixed.len() as u64..count {
        let batch = make_batches::any(&mut random);
        let buffer = buffer_for(&mut random, batch::lines(&batch).len());
        out.write_all(&lines_record(&batch, &buffer))?;
    }
    Ok(())
}

fn fixed_lines() -> Vec<Vec<u8>> {
    let mut records = Vec::new();
    for batch in make_batches::paper_batches() {
        let exact = batch::lines(&batch).len();
        for length in [exact, exact - 1, exact + 3] {
            records.push(lines_record(&batch, &vec![0xA5; length]));
        }
    }
    // The text of a refused header is ten bytes long.
    let refused: Vec<u8> = Vec::new();
    for length in [0, 1, 9, 10, 11, 30] {
        records.push(lines_record(&refused, &vec![0x5A; length]));
    }
    records.push(lines_record(&paper::whole_batch(), &[]));
    for batch in make_batches::header_cases() {
        records.push(lines_record(&batch, &[0x5A; 40]));
    }
    records.push(lines_record(&make_batches::span_cases(), &[0; 1000]));
    records.push(lines_record(
        &make_batches::of_length(MOST_BYTES),
        &[0; 200],
    ));
    records.push(lines_record(
        &make_batches::of_length(MOST_BYTES + 1),
        &[0; 200],
    ));
    records
}

fn buffer_for(random: &mut Random, exact: usize) -> Vec<u8> {
    let length = match random.below(8) {
        0..=2 => exact,
        3 => exact - 1,
        4 => exact + random.between(1, 40),
        5 => 0,
        6 => random.below(exact),
        _ => exact + 1,
    };
    random.bytes(length)
}

/// The fixed cases, then random ones until there are `count` in all.
pub fn generate_entries(seed: u64, count: u64, out: &mut dyn Write) -> io::Result<()> {
    let mut random = Random::new(seed);
    let fixed = fixed_entries();
    for record in &fixed {
        out.write_all(record)?;
    }
    for _ in fixed.len() as u64..count {
        let batch = make_batches::any(&mut random);
        // The lowest byte of the count, which is the count in most batches.
        let entries = batch.get(3).map_or(1, |&b| usize::from(b).clamp(1, 64));
        let number = match random.below(10) {
            0..=6 => random.below(entries),
            7 => entries,
            8 => random.pick(&[entries + 1, 63, 64, 65, 255, 256]),
            _ => random.pick(&[256 + entries - 1, 0x1000, 0x8000, 65_535]),
        };
        out.write_all(&entry_record(&batch, number as u16))?;
    }
    Ok(())
}

fn fixed_entries() -> Vec<Vec<u8>> {
    let mut records = Vec::new();
    let whole = paper::whole_batch();
    for number in [0, 1, 2, 3, 64, 255, 256, 257, 65_535] {
        records.push(entry_record(&whole, number));
    }
    // P1 to P11 in one batch, one in the other order: entries 0 to 11.
    let papers = make_batches::paper_batches().swap_remove(1);
    for number in 0..13 {
        records.push(entry_record(&papers, number));
    }
    for upload in paper::also_run() {
        let batch = BatchDraft::of_uploads(&[upload]).bytes();
        records.push(entry_record(&batch, 0));
    }
    for batch in make_batches::header_cases() {
        records.push(entry_record(&batch, 0));
        records.push(entry_record(&batch, 1));
    }
    let spans = make_batches::span_cases();
    let count = u16::from(spans[3]);
    for number in 0..=count {
        records.push(entry_record(&spans, number));
    }
    records.push(entry_record(&make_batches::of_length(MOST_BYTES), 3));
    records.push(entry_record(&make_batches::of_length(MOST_BYTES + 1), 3));
    records
}
