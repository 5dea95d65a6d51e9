//! Images of a table: reached by runs, sound, unsound, of wrong length.

use crate::log;
use crate::random::Random;
use crate::state::State;
use crate::upload::Table;

pub fn fresh(table: &Table) -> Vec<u8> {
    State::fresh(table).image()
}

/// The image after some steps of a random run; the end is common.
pub fn reached(random: &mut Random, table: &Table) -> Vec<u8> {
    let most = if random.once_in(4) {
        usize::MAX
    } else {
        random.below(3 * table.nodes + 1)
    };
    log::random_run(random, table, most).1.image()
}

/// Any sound image, whether or not a run reaches it.
pub fn sound(random: &mut Random, table: &Table) -> Vec<u8> {
    let rarely = random.between(2, 5);
    let mut image: Vec<u8> = (0..table.nodes)
        .map(|_| {
            let waiting = u8::from(random.once_in(rarely));
            let contending = u8::from(random.once_in(2));
            let root = u8::from(random.once_in(rarely));
            waiting + 2 * contending + 4 * root
        })
        .collect();
    for direction in 0..table.directions() {
        let (source, _) = table.ends(direction);
        let child = u8::from(!random.once_in(rarely));
        let may_send = image[source] & 1 == 0;
        let message = if may_send { random.below(3) as u8 } else { 0 };
        image.push(child + 2 * message);
    }
    image
}

/// A sound image on which no step is possible: no message, no two neighbours
/// that contend, no waiting node with fewer than two unheard links, and every
/// node that has heard all is root.
pub fn quiet(random: &mut Random, table: &Table) -> Vec<u8> {
    let childless_once_in = random.between(1, 4);
    let root_once_in = random.pick(&[2, 6, 1000]);
    let children: Vec<bool> = (0..table.directions())
        .map(|_| !random.once_in(childless_once_in))
        .collect();
    let mut nodes: Vec<u8> = Vec::new();
    for node in 0..table.nodes {
        let unheard = table.into(node).iter().filter(|&&d| !children[d]).count();
        let waiting = unheard >= 2 && !random.once_in(3);
        let root = unheard == 0 || random.once_in(root_once_in);
        let beside = table.into(node).iter().any(|&d| {
            let (neighbour, _) = table.ends(d);
            nodes.get(neighbour).is_some_and(|&byte| byte & 2 != 0)
        });
        let contending = !beside && random.once_in(4);
        nodes.push(u8::from(waiting) + 2 * u8::from(contending) + 4 * u8::from(root));
    }
    nodes
        .into_iter()
        .chain(children.into_iter().map(u8::from))
        .collect()
}

/// An image of the right length with a byte out of range or a waiting node
/// that sends.
pub fn unsound(random: &mut Random, table: &Table) -> Vec<u8> {
    let mut image = any_sound(random, table);
    let node = random.below(table.nodes);
    if table.links.is_empty() {
        image[node] = random.pick(&[8, 9, 16, 128, 255]);
        return image;
    }
    let direction = random.below(table.directions());
    match random.below(3) {
        0 => image[node] = random.pick(&[8, 9, 16, 128, 255]),
        1 => {
            let (source, _) = table.ends(direction);
            image[source] &= !1;
            image[table.nodes + direction] = random.pick(&[6, 7, 8, 128, 255]);
        }
        _ => {
            let (source, _) = table.ends(direction);
            image[source] |= 1;
            image[table.nodes + direction] = random.pick(&[2, 3, 4, 5]);
        }
    }
    image
}

/// An image of any length but the right one.
pub fn wrong_length(random: &mut Random, table: &Table) -> Vec<u8> {
    let right = table.image_length();
    let mut image = any_sound(random, table);
    match random.below(6) {
        0 => image.clear(),
        1 => image.truncate(right - 1),
        2 => image.push(0),
        3 => image.truncate(table.nodes - 1),
        4 => image.extend(fresh(table)),
        _ => {
            let length = random.below(right);
            image.truncate(length);
        }
    }
    image
}

pub fn any_sound(random: &mut Random, table: &Table) -> Vec<u8> {
    match random.below(6) {
        0 => fresh(table),
        1 | 2 => reached(random, table),
        3 | 4 => sound(random, table),
        _ => quiet(random, table),
    }
}

/// Mostly sound; else unsound, of wrong length, or with one byte drawn anew.
pub fn any(random: &mut Random, table: &Table) -> Vec<u8> {
    match random.below(10) {
        0..=6 => any_sound(random, table),
        7 => unsound(random, table),
        8 => wrong_length(random, table),
        _ => {
            let mut image = any_sound(random, table);
            let place = random.below(image.len());
            image[place] = random.below(9) as u8;
            image
        }
    }
}
