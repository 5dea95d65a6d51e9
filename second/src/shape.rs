//! Tables that the rules accept, of many shapes.

use crate::draft::Draft;
use crate::random::Random;
use crate::upload::{MOST_LINKS, MOST_NODES};

pub fn lone() -> Draft {
    of_links(1, Vec::new())
}

pub fn chain(nodes: usize) -> Draft {
    of_links(nodes, (1..nodes).map(|x| (x - 1, x)).collect())
}

pub fn star(nodes: usize) -> Draft {
    of_links(nodes, (1..nodes).map(|x| (0, x)).collect())
}

pub fn tree(random: &mut Random, nodes: usize) -> Draft {
    let links = (1..nodes).map(|x| (random.below(x), x)).collect();
    of_links(nodes, links)
}

/// At least three nodes.
pub fn ring(nodes: usize) -> Draft {
    of_links(nodes, (0..nodes).map(|x| (x, (x + 1) % nodes)).collect())
}

/// A triangle of nodes 0, 1 and 2; every other node hangs off an earlier one.
pub fn triangle_with_tails(random: &mut Random, nodes: usize) -> Draft {
    let mut links = vec![(0, 1), (1, 2), (2, 0)];
    links.extend((3..nodes).map(|x| (random.below(x), x)));
    of_links(nodes, links)
}

/// Two rings of at least three nodes each, joined by a path of `path` links.
/// Where `path` is 0 they share a node.
pub fn joined_rings(first: usize, second: usize, path: usize) -> Draft {
    let mut links: Vec<(usize, usize)> = (0..first).map(|x| (x, (x + 1) % first)).collect();
    let mut nodes = first;
    let mut end = 0;
    for _ in 0..path {
        links.push((end, nodes));
        end = nodes;
        nodes += 1;
    }
    let start = end;
    for _ in 1..second {
        links.push((end, nodes));
        end = nodes;
        nodes += 1;
    }
    links.push((end, start));
    of_links(nodes, links)
}

/// A random tree with more links put in, `links` in all or as many as can be.
pub fn dense(random: &mut Random, nodes: usize, links: usize) -> Draft {
    let mut draft = tree(random, nodes);
    let mut others: Vec<(u8, u8)> = Vec::new();
    for y in 0..draft.nodes {
        for x in 0..y {
            if !draft.links.contains(&(x, y)) {
                others.push((x, y));
            }
        }
    }
    random.shuffle(&mut others);
    let more = links.saturating_sub(draft.links.len());
    draft.links.extend(others.into_iter().take(more));
    draft
}

/// Every two nodes joined; at most 16 nodes, which have 120 links.
pub fn complete(nodes: usize) -> Draft {
    let links = (0..nodes)
        .flat_map(|y| (0..y).map(move |x| (x, y)))
        .collect();
    of_links(nodes, links)
}

/// Any shape, with its nodes renamed, its links reordered and some turned.
pub fn any(random: &mut Random) -> Draft {
    let nodes = match random.below(12) {
        0 => random.between(20, MOST_NODES),
        1 | 2 => random.between(9, 19),
        _ => random.between(2, 8),
    };
    let mut draft = match random.below(13) {
        0 => lone(),
        1..=3 => tree(random, nodes),
        4 => chain(nodes),
        5 => star(nodes),
        6 => ring(nodes.max(3)),
        7 | 8 => triangle_with_tails(random, nodes.max(3)),
        9 => {
            let (first, second) = (random.between(3, 6), random.between(3, 6));
            joined_rings(first, second, random.below(5))
        }
        10 | 11 => {
            let links = random.between(nodes, (2 * nodes).min(MOST_LINKS));
            dense(random, nodes, links)
        }
        _ => any_extreme(random),
    };
    disguise(random, &mut draft);
    draft
}

/// A table at one of the limits.
fn any_extreme(random: &mut Random) -> Draft {
    match random.below(6) {
        0 => chain(MOST_NODES),
        1 => star(MOST_NODES),
        2 => ring(MOST_NODES),
        3 => tree(random, MOST_NODES),
        4 => {
            let nodes = random.between(17, MOST_NODES);
            dense(random, nodes, MOST_LINKS)
        }
        _ => complete(random.between(3, 16)),
    }
}

fn disguise(random: &mut Random, draft: &mut Draft) {
    let mut names: Vec<u8> = (0..draft.nodes).collect();
    if !random.once_in(3) {
        random.shuffle(&mut names);
        random.shuffle(&mut draft.links);
    }
    for link in &mut draft.links {
        let (x, y) = (names[usize::from(link.0)], names[usize::from(link.1)]);
        *link = if random.once_in(2) { (x, y) } else { (y, x) };
    }
}

fn of_links(nodes: usize, links: Vec<(usize, usize)>) -> Draft {
    let links = links.into_iter().map(|(x, y)| (x as u8, y as u8)).collect();
    Draft {
        nodes: nodes as u8,
        links,
        actions: Vec::new(),
    }
}
