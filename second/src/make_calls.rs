//! Files of calls.

use std::io::{self, Write};

use crate::draft::Draft;
use crate::fault;
use crate::image;
use crate::log;
use crate::paper;
use crate::random::Random;
use crate::record::{Call, Name};
use crate::shape;
use crate::state::State;
use crate::step;
use crate::upload::{Table, MOST_LINKS, MOST_NODES};

const NAMES: [Name; 6] = [
    Name::Fresh,
    Name::Report,
    Name::List,
    Name::Step,
    Name::Run,
    Name::Replay,
];

/// The fixed calls, then random ones until there are `count` in all.
pub fn generate(seed: u64, count: u64, out: &mut dyn Write) -> io::Result<()> {
    let mut random = Random::new(seed);
    let fixed = fixed();
    for call in &fixed {
        out.write_all(&call.record())?;
    }
    for _ in fixed.len() as u64..count {
        out.write_all(&any(&mut random).record())?;
    }
    Ok(())
}

fn fixed() -> Vec<Call> {
    let mut calls: Vec<Call> = paper::replays()
        .iter()
        .map(|draft| Call::replay(draft.bytes()))
        .collect();
    for image in paper::P12_IMAGES {
        let upload = paper::pair(&[]).bytes();
        calls.push(Call::new(Name::Report, upload.clone(), image.to_vec()));
        calls.push(with_action(
            Call::new(Name::Step, upload, image.to_vec()),
            [1, 0, 255],
        ));
    }
    calls.extend(paper::also_run().into_iter().map(Call::replay));
    calls.extend(single_steps_of_p2());
    calls.extend(every_call_on_limits());
    calls.extend(order_of_refusals());
    calls
}

/// Each step of P2 as a call of its own, on the image that the last one left.
fn single_steps_of_p2() -> Vec<Call> {
    let draft = paper::pair(&paper::P2_LOG);
    let table = draft.table();
    let mut state = State::fresh(&table);
    let mut calls = Vec::new();
    for &action in &draft.actions {
        let call = Call::new(Name::Step, draft.bytes(), state.image());
        calls.push(with_action(call, action));
        if let Ok(wanted) = step::read(&table, action) {
            step::take(&table, &mut state, wanted);
        }
    }
    calls
}

/// Every call on tables at the limits, with images of the right length, one
/// byte short and one byte long, and list buffers around the right length.
fn every_call_on_limits() -> Vec<Call> {
    let mut random = Random::new(2);
    let drafts = [
        shape::lone(),
        paper::pair(&[]),
        shape::ring(3),
        shape::chain(MOST_NODES),
        shape::dense(&mut random, MOST_NODES, MOST_LINKS),
    ];
    let mut calls = Vec::new();
    for draft in drafts {
        let table = draft.table();
        let fresh = image::fresh(&table);
        let mut short = fresh.clone();
        short.pop();
        let mut long = fresh.clone();
        long.push(0);
        for name in NAMES {
            for image in [&fresh, &short, &long] {
                let call = Call::new(name, draft.bytes(), image.clone());
                calls.push(with_action(call, [1, 0, 255]));
            }
        }
        // Old bytes out of range are overwritten unread.
        for name in [Name::Fresh, Name::Run] {
            calls.push(Call::new(name, draft.bytes(), vec![255; fresh.len()]));
        }
        let exact = 3 * step::list(&table, &State::fresh(&table)).len();
        for length in [0, exact.saturating_sub(1), exact, exact + 1, exact + 30] {
            let mut call = Call::new(Name::List, draft.bytes(), fresh.clone());
            call.buffer = vec![0xA5; length];
            calls.push(call);
        }
    }
    calls
}

/// Calls that could be refused on two grounds.
fn order_of_refusals() -> Vec<Call> {
    let pair = paper::pair(&[]).bytes();
    let two_pieces = Draft::new(2, &[], &[]).bytes();
    let unsound = vec![1, 1, 2, 0];
    let mut calls = vec![
        // 12 before 13.
        Call::new(Name::List, pair.clone(), unsound.clone()),
        // 12 before 9, 10 and 11.
        with_action(
            Call::new(Name::Step, pair.clone(), unsound.clone()),
            [0, 9, 9],
        ),
        with_action(
            Call::new(Name::Step, pair.clone(), unsound.clone()),
            [2, 0, 0],
        ),
        with_action(Call::new(Name::Step, pair.clone(), unsound), [5, 0, 255]),
        // 9 before 10, 10 before 11.
        with_action(
            Call::new(Name::Step, pair.clone(), vec![1, 1, 0, 0]),
            [2, 2, 2],
        ),
        with_action(Call::new(Name::Step, pair, vec![1, 1, 0, 0]), [4, 1, 1]),
    ];
    // 8 before 12, 9 and 13.
    for name in NAMES {
        calls.push(with_action(
            Call::new(name, two_pieces.clone(), vec![9]),
            [9, 9, 9],
        ));
    }
    // Links: 5 before 6, 6 before 7, an earlier link before a later one.
    let link_cases: [&[(u8, u8)]; 6] = [
        &[(2, 2), (0, 1)],
        &[(0, 1), (0, 0), (0, 1)],
        &[(0, 1), (1, 0), (5, 5)],
        &[(0, 1), (0, 1), (1, 1)],
        &[(0, 1), (0, 2), (1, 1)],
        &[(0, 0), (0, 0)],
    ];
    for links in link_cases {
        calls.push(Call::replay(Draft::new(2, links, &[[0, 0, 0]]).bytes()));
    }
    // 4 before 3 for the exact length, 3 before 5.
    calls.push(Call::replay(vec![0, 0, 0, 0, 0]));
    calls.push(Call::replay(vec![64, 127, 255, 255]));
    calls.push(Call::replay(vec![2, 1, 0, 0, 9, 9, 0]));
    calls.push(Call::replay(vec![2, 1, 0, 0, 9]));
    calls
}

fn with_action(call: Call, action: [u8; 3]) -> Call {
    Call { action, ..call }
}

fn any(random: &mut Random) -> Call {
    let name = match random.below(14) {
        0 => Name::Fresh,
        1 | 2 => Name::Report,
        3..=5 => Name::List,
        6..=9 => Name::Step,
        10 => Name::Run,
        _ => Name::Replay,
    };
    if random.once_in(8) {
        return on_faulty_upload(random, name);
    }
    let mut draft = shape::any(random);
    let table = draft.table();
    // Only a replay reads the log, but any call may be lent one.
    if name == Name::Replay || random.once_in(6) {
        log::fill(random, &mut draft);
    }
    let image = match name {
        Name::Fresh | Name::Run => old_image(random, &table),
        Name::Replay if !random.once_in(6) => Vec::new(),
        _ => image::any(random, &table),
    };
    let action = if name == Name::Step {
        action_for(random, &table, &image)
    } else {
        [0, 0, 0]
    };
    let buffer = match name {
        Name::List => buffer_for(random, &table, &image),
        _ if random.once_in(10) => small_buffer(random),
        _ => Vec::new(),
    };
    Call {
        name,
        action,
        upload: draft.bytes(),
        image,
        buffer,
    }
}

fn on_faulty_upload(random: &mut Random, name: Name) -> Call {
    let upload = fault::faulty_upload(random);
    let length = match upload.as_slice() {
        // The length that the counts ask for, so that the image is not at fault.
        [n, m, ..] if random.once_in(2) => usize::from(*n) + 2 * usize::from(*m),
        _ => random.below(12),
    };
    let image = (0..length).map(|_| random.below(8) as u8).collect();
    let action = [
        random.between(0, 6) as u8,
        random.below(4) as u8,
        random.byte(),
    ];
    Call {
        name,
        action,
        upload,
        image,
        buffer: small_buffer(random),
    }
}

/// Memory for a fresh image or an end image: any bytes, mostly of the right length.
fn old_image(random: &mut Random, table: &Table) -> Vec<u8> {
    if random.once_in(5) {
        image::wrong_length(random, table)
    } else {
        random.bytes(table.image_length())
    }
}

/// Mostly a possible step, where the image has one.
fn action_for(random: &mut Random, table: &Table, image: &[u8]) -> [u8; 3] {
    let choice = random.below(8);
    if choice < 5 {
        if let Some(state) = State::of_image(table, image) {
            let steps = step::list(table, &state);
            if !steps.is_empty() {
                return step::bytes(table, random.pick(&steps));
            }
        }
    }
    if choice < 7 {
        log::stray(random, table)
    } else {
        log::nonsense(random, table)
    }
}

/// A buffer for the list: too long, exact, one byte short, empty, or any.
fn buffer_for(random: &mut Random, table: &Table, image: &[u8]) -> Vec<u8> {
    let steps = State::of_image(table, image).map_or(2, |state| step::list(table, &state).len());
    let exact = 3 * steps;
    let length = match random.below(9) {
        0..=2 => exact,
        3 | 4 => exact + random.between(1, 20),
        5 | 6 => exact.saturating_sub(1),
        7 => 0,
        _ => random.below(exact + 4),
    };
    random.bytes(length)
}

fn small_buffer(random: &mut Random) -> Vec<u8> {
    let length = random.below(8);
    random.bytes(length)
}
