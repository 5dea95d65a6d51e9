//! Files of replays for the reader of uploads: lies about counts and lengths,
//! and small good uploads with every byte set to every value.

use std::io::{self, Write};

use crate::draft::Draft;
use crate::fault::{too_many_actions, too_many_links};
use crate::log;
use crate::paper;
use crate::random::Random;
use crate::record::Call;
use crate::shape;

/// The fixed lies, then every change of one byte of `count` good uploads.
pub fn generate(seed: u64, count: u64, out: &mut dyn Write) -> io::Result<()> {
    let mut random = Random::new(seed);
    let mut write = |upload: Vec<u8>| out.write_all(&Call::replay(upload).record());
    for upload in lies(&mut random) {
        write(upload)?;
    }
    for number in 0..count {
        let good = small_good(&mut random, number).bytes();
        for place in 0..good.len() {
            for value in 0..=255 {
                let mut damaged = good.clone();
                damaged[place] = value;
                write(damaged)?;
            }
        }
    }
    Ok(())
}

fn lies(random: &mut Random) -> Vec<Vec<u8>> {
    let good = paper::pair(&paper::P2_LOG).bytes();
    let mut uploads: Vec<Vec<u8>> = paper::replays()
        .iter()
        .map(Draft::bytes)
        .chain([good.clone()])
        .collect();

    // Every length under the right one, and some over it.
    uploads.extend((0..good.len()).map(|length| good[..length].to_vec()));
    for more in [1, 2, 3, 4, 21, 300] {
        let mut long = good.clone();
        long.extend(random.bytes(more));
        uploads.push(long);
    }
    for length in 0..4 {
        uploads.push(vec![255; length]);
        uploads.push(random.bytes(length));
    }

    // Counts that ask for more or for less than there is.
    for (place, value) in [
        (1, 0),
        (1, 2),
        (1, 126),
        (2, 1),
        (2, 4),
        (3, 0),
        (3, 4),
        (3, 6),
    ] {
        let mut lying = good.clone();
        lying[place] = value;
        uploads.push(lying);
    }

    // Counts out of range, in uploads of another length than they ask for.
    for (place, value) in [(0, 0), (0, 64), (0, 255), (1, 127), (1, 255)] {
        let mut outside = good.clone();
        outside[place] = value;
        uploads.push(outside);
        let mut bare = vec![1, 0, 0, 0];
        bare[place] = value;
        uploads.push(bare);
    }
    for actions in [[4, 1], [255, 255]] {
        let mut outside = good.clone();
        outside[2..4].copy_from_slice(&actions);
        uploads.push(outside);
        uploads.push([&[1, 0], actions.as_slice()].concat());
    }

    // Counts out of range, in uploads of just the length that they ask for.
    uploads.extend([
        too_many_links(126),
        too_many_links(127),
        too_many_links(255),
    ]);
    uploads.extend([too_many_actions(1024), too_many_actions(1025)]);
    uploads.push(shape::chain(64).bytes());
    uploads.push(shape::chain(120).bytes());
    uploads
}

/// A good upload of 8 to 16 bytes, of one of four forms in turn.
fn small_good(random: &mut Random, number: u64) -> Draft {
    let (mut draft, actions) = match number % 4 {
        0 => (shape::lone(), 2),
        1 => (shape::chain(2), random.between(1, 2)),
        2 => (shape::ring(3), 0),
        _ => (shape::tree(random, 3), random.between(0, 2)),
    };
    let table = draft.table();
    draft.actions = log::complete(random, &table);
    draft.actions.truncate(actions);
    draft
}
