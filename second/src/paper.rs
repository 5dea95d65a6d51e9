//! The cases that document 01 names.

use crate::draft::{BatchDraft, Draft};
use crate::fault::{too_many_actions, too_many_links};
use crate::log;
use crate::random::Random;
use crate::shape;
use crate::upload::{MOST_ACTIONS, MOST_LINKS, MOST_NODES};

/// P2's table with a log.
pub fn pair(actions: &[[u8; 3]]) -> Draft {
    Draft::new(2, &[(0, 1)], actions)
}

/// P2's log.
pub const P2_LOG: [[u8; 3]; 5] = [[1, 0, 255], [2, 0, 1], [1, 1, 255], [3, 1, 0], [5, 1, 255]];

/// P1, P1 in the other order, then P2 to P11.
pub fn replays() -> Vec<Draft> {
    let p4_log: Vec<[u8; 3]> = P2_LOG.iter().copied().chain([[5, 1, 255]]).collect();
    let p9_log = [
        [1, 0, 255],
        [1, 2, 255],
        [2, 0, 1],
        [2, 2, 1],
        [5, 1, 255],
        [1, 1, 255],
        [3, 1, 0],
        [3, 1, 2],
    ];
    let p3_log = [
        [1, 0, 255],
        [1, 1, 255],
        [3, 0, 1],
        [3, 1, 0],
        [4, 0, 1],
        [5, 1, 255],
    ];
    let triangle = [(0, 1), (1, 2), (2, 0)];
    let triangle_and_tail = [(0, 1), (1, 2), (2, 0), (3, 0)];
    vec![
        Draft::new(1, &[], &[[5, 0, 255], [1, 0, 255]]),
        Draft::new(1, &[], &[[1, 0, 255], [5, 0, 255]]),
        pair(&P2_LOG),
        pair(&p3_log),
        pair(&p4_log),
        pair(&[[2, 0, 1]]),
        Draft::new(3, &triangle, &[]),
        Draft::new(3, &triangle, &[[1, 0, 255]]),
        Draft::new(4, &triangle_and_tail, &[[1, 3, 255], [2, 3, 0]]),
        Draft::new(3, &[(0, 1), (1, 2)], &p9_log),
        Draft::new(2, &[(0, 1), (1, 0)], &[]),
        Draft::new(2, &[], &[]),
    ]
}

/// The images of P12, on P2's table: the unsound one and the fresh one.
pub const P12_IMAGES: [[u8; 4]; 2] = [[1, 1, 2, 0], [1, 1, 0, 0]];

/// The whole case of the batch program, 44 bytes.
pub fn whole_batch() -> Vec<u8> {
    BatchDraft::of_uploads(&[pair(&P2_LOG).bytes(), vec![0, 0, 0]]).bytes()
}

/// The uploads of the list of cases that are also to be run.
pub fn also_run() -> Vec<Vec<u8>> {
    let mut random = Random::new(1);
    let mut no_node = shape::lone().bytes();
    no_node[0] = 0;
    let mut one_too_many = shape::chain(MOST_NODES + 1).bytes();
    one_too_many[0] = 64;

    let mut chain = shape::chain(MOST_NODES);
    chain.actions = log::complete(&mut random, &chain.table());
    let mut most_actions = chain.clone();
    most_actions.actions.resize(MOST_ACTIONS, [1, 0, 255]);
    let mut dense = shape::dense(&mut random, MOST_NODES, MOST_LINKS);
    dense.actions = log::complete(&mut random, &dense.table());

    vec![
        no_node,
        one_too_many,
        shape::chain(MOST_NODES).bytes(),
        chain.bytes(),
        dense.bytes(),
        too_many_links(MOST_LINKS + 1),
        most_actions.bytes(),
        too_many_actions(MOST_ACTIONS),
        too_many_actions(MOST_ACTIONS + 1),
    ]
}
