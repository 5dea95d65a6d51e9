//! Files of batches.

use std::io::{self, Write};

use crate::batch::{header_length, MOST_BYTES, MOST_ENTRIES};
use crate::draft::{BatchDraft, Draft};
use crate::fault;
use crate::paper;
use crate::random::Random;
use crate::record::batch_record;

/// Uploads are left out of a random batch once its body is this long.
const BODY_ENOUGH: usize = 20_000;

/// The fixed batches, then random ones until there are `count` in all.
pub fn generate(seed: u64, count: u64, out: &mut dyn Write) -> io::Result<()> {
    let mut random = Random::new(seed);
    let fixed = fixed();
    for batch in &fixed {
        out.write_all(&batch_record(batch))?;
    }
    for _ in fixed.len() as u64..count {
        out.write_all(&batch_record(&any(&mut random)))?;
    }
    Ok(())
}

fn fixed() -> Vec<Vec<u8>> {
    let mut batches = paper_batches();
    batches.extend(header_cases());
    batches.push(span_cases());
    batches.extend([of_length(MOST_BYTES), of_length(MOST_BYTES + 1)]);
    batches
}

/// The whole case, P1 to P11 in one batch and each alone, and the uploads
/// that are also to be run.
pub fn paper_batches() -> Vec<Vec<u8>> {
    let replays: Vec<Vec<u8>> = paper::replays().iter().map(Draft::bytes).collect();
    let mut batches = vec![
        paper::whole_batch(),
        BatchDraft::of_uploads(&replays).bytes(),
    ];
    batches.push(BatchDraft::of_uploads(&paper::also_run()).bytes());
    batches.extend(
        replays
            .into_iter()
            .map(|upload| BatchDraft::of_uploads(&[upload]).bytes()),
    );
    batches
}

/// Headers at the limits and beyond them.
pub fn header_cases() -> Vec<Vec<u8>> {
    let whole = paper::whole_batch();
    let with_count = |count: u32| {
        let mut bytes = whole.clone();
        bytes[..4].copy_from_slice(&count.to_be_bytes());
        bytes
    };
    let empty_spans = |count: usize| {
        let span = (header_length(count) as u32, 0);
        BatchDraft {
            count: count as u32,
            entries: vec![span; count],
            body: Vec::new(),
        }
        .bytes()
    };
    let mut cases: Vec<Vec<u8>> = (0..4).map(|length| whole[..length].to_vec()).collect();
    cases.extend(
        [
            0,
            1,
            3,
            5,
            6,
            64,
            65,
            256,
            258,
            0x0002_0000,
            0x0200_0000,
            0x8000_0002,
            u32::MAX,
        ]
        .map(with_count),
    );
    cases.extend([4, 5, 11, 12, 13, 19, 20, 21, 43].map(|length| whole[..length].to_vec()));
    cases.extend([1, 2, MOST_ENTRIES, MOST_ENTRIES + 1].map(empty_spans));
    let full = empty_spans(MOST_ENTRIES);
    cases.push(full[..full.len() - 1].to_vec());
    cases
}

/// One batch whose entries name spans at every limit; P2 follows the header.
pub fn span_cases() -> Vec<u8> {
    let upload = paper::pair(&paper::P2_LOG).bytes();
    let size = upload.len() as u32;
    // The number of spans does not depend on the numbers in them.
    let count = edge_spans(0, 0, 0).len();
    let header = header_length(count) as u32;
    BatchDraft {
        count: count as u32,
        entries: edge_spans(header, header + size, size),
        body: upload,
    }
    .bytes()
}

/// Spans at the limits of a batch, inside and outside. The upload of `size`
/// bytes follows the header.
fn edge_spans(header: u32, length: u32, size: u32) -> Vec<(u32, u32)> {
    let before = header.wrapping_sub(1);
    let body = length.wrapping_sub(header);
    vec![
        (header, size),
        (header, body),
        (header, body.wrapping_add(1)),
        (header, 0),
        (header.wrapping_add(1), body),
        (header.wrapping_add(1), body.wrapping_sub(1)),
        (before, 0),
        (before, 1),
        (before, size),
        (0, 0),
        (0, length),
        (4, 8),
        (4, 0),
        (length, 0),
        (length, 1),
        (length.wrapping_add(1), 0),
        (u32::MAX, 0),
        (u32::MAX, 1),
        (u32::MAX, 2),
        (u32::MAX, header.wrapping_add(1)),
        (u32::MAX, u32::MAX),
        (0x8000_0000, 0x8000_0000),
        (header, u32::MAX),
        (header, header.wrapping_neg()),
        (header.wrapping_add(4), u32::MAX - 3),
        (header.wrapping_add(65_536), size),
        (header, size.wrapping_add(65_536)),
        (header.wrapping_add(0x0100_0000), size),
        (header, size.wrapping_add(0x0100_0000)),
        (header.swap_bytes(), size.swap_bytes()),
        (header, size),
    ]
}

/// A batch of many bytes whose last entry ends where the batch ends.
pub fn of_length(length: usize) -> Vec<u8> {
    let upload = paper::pair(&paper::P2_LOG).bytes();
    let header = header_length(5);
    let rest = length - header;
    let last = length - upload.len();
    let mut body = upload.clone();
    body.resize(rest - upload.len(), 0);
    body.extend(&upload);
    let span = |offset: usize, size: usize| (offset as u32, size as u32);
    BatchDraft {
        count: 5,
        entries: vec![
            span(header, upload.len()),
            span(header, rest),
            span(header, rest + 1),
            span(last, upload.len()),
            span(length, 0),
        ],
        body,
    }
    .bytes()
}

/// Any batch of a modest size.
pub fn any(random: &mut Random) -> Vec<u8> {
    let mut draft = laid_out(random);
    if random.once_in(3) {
        for _ in 0..random.between(1, 3) {
            spoil_a_span(random, &mut draft);
        }
    }
    if random.once_in(8) {
        spoil_count(random, &mut draft);
    }
    let mut bytes = draft.bytes();
    match random.below(24) {
        0 => {
            let length = random.below(bytes.len() + 1);
            bytes.truncate(length);
        }
        1 => {
            // Cut within the header or just after it.
            let length = random.below(header_length(draft.entries.len()) + 4);
            bytes.truncate(length);
        }
        2 => {
            let length = random.below(48);
            bytes = random.bytes(length);
        }
        3 => {
            let place = random.below(bytes.len());
            bytes[place] = random.byte();
        }
        _ => {}
    }
    bytes
}

fn laid_out(random: &mut Random) -> BatchDraft {
    let count = match random.below(16) {
        0 => MOST_ENTRIES,
        1 | 2 => random.between(6, 14),
        _ => random.between(1, 5),
    };
    match random.below(8) {
        0 => with_gaps(random, count),
        1 => shared(random, count),
        2 => random_spans(random, count),
        3 => nested(random),
        _ => BatchDraft::of_uploads(&uploads(random, count)),
    }
}

/// As many uploads as asked for; the last may be empty to keep them short.
fn uploads(random: &mut Random, count: usize) -> Vec<Vec<u8>> {
    let mut total = 0;
    let mut uploads = Vec::new();
    for _ in 0..count {
        let upload = if total > BODY_ENOUGH {
            Vec::new()
        } else {
            fault::any_upload(random)
        };
        total += upload.len();
        uploads.push(upload);
    }
    uploads
}

/// The entries in another order than the uploads, with bytes between these.
fn with_gaps(random: &mut Random, count: usize) -> BatchDraft {
    let mut draft = BatchDraft {
        count: count as u32,
        entries: Vec::new(),
        body: Vec::new(),
    };
    for upload in uploads(random, count) {
        let gap = random.below(6);
        draft.body.extend(random.bytes(gap));
        let offset = header_length(count) + draft.body.len();
        draft.entries.push((offset as u32, upload.len() as u32));
        draft.body.extend(upload);
    }
    let gap = random.below(6);
    draft.body.extend(random.bytes(gap));
    random.shuffle(&mut draft.entries);
    draft
}

/// Entries that name the same few uploads, and an upload that stands twice.
fn shared(random: &mut Random, count: usize) -> BatchDraft {
    let few = random.between(1, 3);
    let mut few_uploads = uploads(random, few);
    few_uploads.push(few_uploads[0].clone());
    let header = header_length(count);
    let mut spans = Vec::new();
    let mut body = Vec::new();
    for upload in &few_uploads {
        spans.push(((header + body.len()) as u32, upload.len() as u32));
        body.extend(upload);
    }
    let entries = (0..count).map(|_| random.pick(&spans)).collect();
    BatchDraft {
        count: count as u32,
        entries,
        body,
    }
}

/// Spans that lie inside anywhere, so that they overlap and cut uploads.
fn random_spans(random: &mut Random, count: usize) -> BatchDraft {
    let mut draft = BatchDraft::of_uploads(&uploads(random, count));
    let header = header_length(count);
    for entry in &mut draft.entries {
        if random.once_in(2) {
            let start = random.below(draft.body.len() + 1);
            let size = random.below(draft.body.len() - start + 1);
            *entry = ((header + start) as u32, size as u32);
        }
    }
    draft
}

/// An upload whose actions are the bytes of another, and entries for both.
fn nested(random: &mut Random) -> BatchDraft {
    let inner = fault::good_upload(random);
    let actions: Vec<[u8; 3]> = inner
        .chunks(3)
        .map(|part| {
            let mut action = [0; 3];
            action[..part.len()].copy_from_slice(part);
            action
        })
        .take(1024)
        .collect();
    let outer = Draft::new(1, &[], &actions).bytes();
    let header = header_length(3) as u32;
    let outer_span = (header, outer.len() as u32);
    let inner_span = (header + 4, (inner.len() as u32).min(outer.len() as u32 - 4));
    BatchDraft {
        count: 3,
        entries: vec![outer_span, inner_span, outer_span],
        body: outer,
    }
}

/// Moves a span to one of the limits, or by a little.
fn spoil_a_span(random: &mut Random, draft: &mut BatchDraft) {
    if draft.entries.is_empty() {
        return;
    }
    let header = header_length(draft.entries.len()) as u32;
    let length = draft.length() as u32;
    let place = random.below(draft.entries.len());
    let (offset, size) = draft.entries[place];
    let little = random.between(1, 4) as u32;
    draft.entries[place] = match random.below(8) {
        0 => (offset, size.wrapping_add(little)),
        1 => (offset, size.saturating_sub(little)),
        2 => (offset.wrapping_add(little), size),
        3 => (offset.wrapping_sub(little), size),
        _ => {
            let spans = edge_spans(header, length, size);
            random.pick(&spans)
        }
    };
}

fn spoil_count(random: &mut Random, draft: &mut BatchDraft) {
    let right = draft.count;
    draft.count = match random.below(8) {
        0 => 0,
        1 => right.saturating_sub(1),
        2 => right + 1,
        3 => 64,
        4 => 65,
        5 => right.swap_bytes(),
        6 => right + 256,
        _ => random.pick(&[65_536, 0x2000_0000, 0x2000_0001, u32::MAX]),
    };
}
