//! Uploads: right ones, and ones that the reader should refuse.

use crate::draft::Draft;
use crate::log;
use crate::random::Random;
use crate::shape;
use crate::upload::{MOST_ACTIONS, MOST_LINKS, MOST_NODES};

/// An upload whose table is accepted, with any log.
pub fn good_upload(random: &mut Random) -> Vec<u8> {
    let mut draft = shape::any(random);
    log::fill(random, &mut draft);
    draft.bytes()
}

/// Four in five are good.
pub fn any_upload(random: &mut Random) -> Vec<u8> {
    if random.once_in(5) {
        faulty_upload(random)
    } else {
        good_upload(random)
    }
}

/// An upload with one fault or several.
pub fn faulty_upload(random: &mut Random) -> Vec<u8> {
    match random.below(12) {
        0..=3 => {
            let mut draft = shape::any(random);
            log::fill(random, &mut draft);
            for _ in 0..random.between(1, 3) {
                spoil_a_link(random, &mut draft);
            }
            draft.bytes()
        }
        4 | 5 => two_pieces(random).bytes(),
        6 | 7 => counts_out_of_range(random),
        8 => lying_length(random),
        9 => {
            let mut bytes = good_upload(random);
            for _ in 0..random.between(1, 3) {
                let place = random.below(bytes.len());
                bytes[place] = random.byte();
            }
            bytes
        }
        10 => {
            let length = random.below(40);
            random.bytes(length)
        }
        _ => {
            let length = random.below(4);
            random.bytes(length)
        }
    }
}

/// Gives a link an end out of range, or makes it join a node to itself, or
/// repeat another link. The link is one of the draft's or a new one.
fn spoil_a_link(random: &mut Random, draft: &mut Draft) {
    let n = draft.nodes;
    let within = random.below(usize::from(n)) as u8;
    let outside = random.pick(&[n, n.saturating_add(1), 63, 64, 255]).max(n);
    let (x, y) = if draft.links.is_empty() {
        (0, 0)
    } else {
        random.pick(&draft.links)
    };
    let bad = match random.below(7) {
        0 => (outside, within),
        1 => (within, outside),
        2 => (outside, outside),
        3 => (within, within),
        4 | 5 => (y, x),
        _ => (x, y),
    };
    let place = random.below(draft.links.len() + 1);
    if draft.links.len() >= MOST_LINKS || (place < draft.links.len() && random.once_in(2)) {
        let last = draft.links.len() - 1;
        draft.links[place.min(last)] = bad;
    } else {
        draft.links.insert(place, bad);
    }
}

/// A table in two pieces or more.
fn two_pieces(random: &mut Random) -> Draft {
    let mut draft = shape::any(random);
    log::fill(random, &mut draft);
    match random.below(3) {
        // One node more, which no link names.
        0 if usize::from(draft.nodes) < MOST_NODES => draft.nodes += 1,
        // All links but one of a tree.
        1 => {
            let nodes = random.between(2, 12);
            draft.nodes = nodes as u8;
            draft.links = shape::tree(random, nodes).links;
            let place = random.below(draft.links.len());
            draft.links.remove(place);
        }
        // Two rings side by side: as many links as nodes.
        _ => {
            let (first, second) = (random.between(3, 6), random.between(3, 6));
            let shift = first as u8;
            draft.nodes = (first + second) as u8;
            draft.links = shape::ring(first).links;
            let others = shape::ring(second).links;
            draft
                .links
                .extend(others.into_iter().map(|(x, y)| (x + shift, y + shift)));
            random.shuffle(&mut draft.links);
        }
    }
    draft
}

/// n, m or a out of range, with the length that they ask for or another.
fn counts_out_of_range(random: &mut Random) -> Vec<u8> {
    let mut bytes = good_upload(random);
    match random.below(8) {
        0 => bytes[0] = 0,
        1 => bytes[0] = 64,
        2 => bytes[0] = random.between(64, 255) as u8,
        3 => bytes = too_many_links(random.between(127, 255)),
        4 => bytes[1] = random.pick(&[127, 128, 255]),
        5 => bytes = too_many_actions(MOST_ACTIONS + 1),
        6 => bytes[2..4].copy_from_slice(&random.pick(&[[4, 1], [255, 255], [8, 0]])),
        _ => bytes.swap(2, 3),
    }
    bytes
}

/// A length that does not fit the counts.
fn lying_length(random: &mut Random) -> Vec<u8> {
    let mut bytes = good_upload(random);
    match random.below(4) {
        0 => bytes.push(random.byte()),
        1 => {
            let more = random.between(1, 9);
            bytes.extend(random.bytes(more));
        }
        2 => {
            let length = bytes.len() - 1;
            bytes.truncate(length);
        }
        _ => {
            let length = random.between(4.min(bytes.len() - 1), bytes.len() - 1);
            bytes.truncate(length);
        }
    }
    bytes
}

/// `count` different links on 63 nodes in one piece, the length being exact;
/// only the count can be refused.
pub fn too_many_links(count: usize) -> Vec<u8> {
    let mut random = Random::new(count as u64);
    shape::dense(&mut random, MOST_NODES, count).bytes()
}

/// A lone node with `count` actions of kind 1, the length being exact.
pub fn too_many_actions(count: usize) -> Vec<u8> {
    let mut draft = shape::lone();
    draft.actions = vec![[1, 0, 255]; count];
    draft.bytes()
}
