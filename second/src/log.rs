//! Logs: the actions of an upload, right and wrong.

use crate::draft::Draft;
use crate::random::Random;
use crate::state::State;
use crate::step;
use crate::upload::{Table, MOST_ACTIONS};

/// Takes possible steps by random choice from fresh, `most` at most.
pub fn random_run(random: &mut Random, table: &Table, most: usize) -> (Vec<[u8; 3]>, State) {
    let mut state = State::fresh(table);
    let mut actions = Vec::new();
    while actions.len() < most {
        let steps = step::list(table, &state);
        if steps.is_empty() {
            break;
        }
        let chosen = random.pick(&steps);
        actions.push(step::bytes(table, chosen));
        step::take(table, &mut state, chosen);
    }
    (actions, state)
}

/// A run from fresh to its end by random choice.
pub fn complete(random: &mut Random, table: &Table) -> Vec<[u8; 3]> {
    random_run(random, table, usize::MAX).0
}

/// Gives the draft a log. Its table must be one that the rules accept.
pub fn fill(random: &mut Random, draft: &mut Draft) {
    let table = draft.table();
    draft.actions = any(random, &table);
}

fn any(random: &mut Random, table: &Table) -> Vec<[u8; 3]> {
    let mut log = if random.once_in(20) {
        Vec::new()
    } else {
        complete(random, table)
    };
    match random.below(10) {
        // The whole run.
        0..=2 => {}
        // Cut short.
        3 | 4 => log.truncate(random.below(log.len() + 1)),
        // A well-written step where it may be impossible.
        5 => put_somewhere(random, &mut log, |r| stray(r, table)),
        // An action that no table could read, or none with these links.
        6 => put_somewhere(random, &mut log, |r| nonsense(r, table)),
        // Several of both.
        7 => {
            for _ in 0..random.between(2, 4) {
                if random.once_in(2) {
                    put_somewhere(random, &mut log, |r| stray(r, table));
                } else {
                    put_somewhere(random, &mut log, |r| nonsense(r, table));
                }
            }
        }
        // Two neighbours in the wrong order, or the last one twice.
        8 => {
            let place = random.below(log.len());
            if place + 1 < log.len() {
                log.swap(place, place + 1);
            } else if let Some(&last) = log.last() {
                log.push(last);
            }
        }
        // Nothing but strays and nonsense, now and then as many as allowed.
        _ => {
            let length = if random.once_in(12) {
                MOST_ACTIONS
            } else {
                random.between(1, 6)
            };
            log.truncate(random.below(log.len() + 1));
            while log.len() < length {
                log.push(if random.once_in(4) {
                    nonsense(random, table)
                } else {
                    stray(random, table)
                });
            }
        }
    }
    log.truncate(MOST_ACTIONS);
    log
}

fn put_somewhere(
    random: &mut Random,
    log: &mut Vec<[u8; 3]>,
    make: impl Fn(&mut Random) -> [u8; 3],
) {
    let action = make(random);
    let place = random.below(log.len() + 1);
    if place < log.len() && random.once_in(2) {
        log[place] = action;
    } else {
        log.insert(place, action);
    }
}

/// A step that names nodes and links rightly; it may be possible or not.
pub fn stray(random: &mut Random, table: &Table) -> [u8; 3] {
    if table.links.is_empty() || random.once_in(3) {
        let node = random.below(table.nodes) as u8;
        [random.pick(&[1, 5]), node, 255]
    } else {
        let (source, target) = table.ends(random.below(table.directions()));
        [random.pick(&[2, 3, 4]), source as u8, target as u8]
    }
}

/// Action bytes that should be refused by 9 or 10, whatever the state; a pair
/// of nodes drawn at random may happen to be linked.
pub fn nonsense(random: &mut Random, table: &Table) -> [u8; 3] {
    let within = |r: &mut Random| r.below(table.nodes) as u8;
    let n = table.nodes as u8;
    let kind_of_node = random.pick(&[1, 5]);
    let kind_of_link = random.pick(&[2, 3, 4]);
    let outside = random.pick(&[n, n + 1, 63, 64, 128, 254, 255]).max(n);
    match random.below(10) {
        0 => [random.pick(&[0, 6, 255]), within(random), 255],
        1 => [
            random.pick(&[0, 6, 7, 128, 255]),
            within(random),
            within(random),
        ],
        2 => [kind_of_node, outside, 255],
        3 => [kind_of_node, within(random), random.pick(&[0, 1, n, 254])],
        4 => [kind_of_node, outside, random.byte()],
        5 => [kind_of_link, outside, within(random)],
        6 => [kind_of_link, within(random), outside],
        7 => {
            let node = within(random);
            [kind_of_link, node, node]
        }
        8 => [kind_of_link, within(random), within(random)],
        _ => [random.byte(), random.byte(), random.byte()],
    }
}
