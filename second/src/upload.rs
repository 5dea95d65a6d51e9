//! The reader of uploads: refusals 3 to 8.

use crate::answer::Refusal;

pub const MOST_NODES: usize = 63;
pub const MOST_LINKS: usize = 126;
pub const MOST_ACTIONS: usize = 1024;

/// A table of links.
///
/// The two directions of link `l` are numbered `2l`, from its first node to
/// its second, and `2l + 1`, back.
pub struct Table {
    pub nodes: usize,
    pub links: Vec<(usize, usize)>,
    /// For each node, the directions that lead into it.
    into: Vec<Vec<usize>>,
}

impl Table {
    /// The nodes that the links name must be below `nodes`.
    pub fn new(nodes: usize, links: Vec<(usize, usize)>) -> Table {
        let mut into = vec![Vec::new(); nodes];
        for (link, &(first, second)) in links.iter().enumerate() {
            into[second].push(2 * link);
            into[first].push(2 * link + 1);
        }
        Table { nodes, links, into }
    }

    pub fn directions(&self) -> usize {
        2 * self.links.len()
    }

    pub fn image_length(&self) -> usize {
        self.nodes + self.directions()
    }

    pub fn into(&self, node: usize) -> &[usize] {
        &self.into[node]
    }

    /// The source and the target of a direction.
    pub fn ends(&self, direction: usize) -> (usize, usize) {
        let (first, second) = self.links[direction / 2];
        if direction & 1 == 0 {
            (first, second)
        } else {
            (second, first)
        }
    }

    /// The direction from one node to another, if a link joins them.
    pub fn direction(&self, source: usize, target: usize) -> Option<usize> {
        self.into[target]
            .iter()
            .copied()
            .find(|&d| self.ends(d).0 == source)
    }

    fn is_one_piece(&self) -> bool {
        let mut reached = vec![false; self.nodes];
        let mut open = vec![0];
        reached[0] = true;
        while let Some(node) = open.pop() {
            for &direction in self.into(node) {
                let (neighbour, _) = self.ends(direction);
                if !reached[neighbour] {
                    reached[neighbour] = true;
                    open.push(neighbour);
                }
            }
        }
        reached.iter().all(|&r| r)
    }
}

/// The direction of the same link the other way.
pub fn reverse(direction: usize) -> usize {
    direction ^ 1
}

/// An upload that passed checks 3 to 8. The actions are as yet unread.
pub struct Upload {
    pub table: Table,
    pub actions: Vec<[u8; 3]>,
}

pub fn read(bytes: &[u8]) -> Result<Upload, Refusal> {
    let [n, m, a_high, a_low, rest @ ..] = bytes else {
        return Err(Refusal::plain(3));
    };
    let nodes = usize::from(*n);
    let link_count = usize::from(*m);
    let action_count = usize::from(u16::from_be_bytes([*a_high, *a_low]));

    let nodes_in_range = (1..=MOST_NODES).contains(&nodes);
    if !nodes_in_range || link_count > MOST_LINKS || action_count > MOST_ACTIONS {
        return Err(Refusal::plain(4));
    }
    if rest.len() != 2 * link_count + 3 * action_count {
        return Err(Refusal::plain(3));
    }
    let (link_bytes, action_bytes) = rest.split_at(2 * link_count);

    let table = Table::new(nodes, read_links(nodes, link_bytes)?);
    if !table.is_one_piece() {
        return Err(Refusal::plain(8));
    }
    let actions = action_bytes
        .chunks_exact(3)
        .map(|c| [c[0], c[1], c[2]])
        .collect();
    Ok(Upload { table, actions })
}

fn read_links(nodes: usize, bytes: &[u8]) -> Result<Vec<(usize, usize)>, Refusal> {
    let mut links: Vec<(usize, usize)> = Vec::new();
    for (place, pair) in bytes.chunks_exact(2).enumerate() {
        let (first, second) = (usize::from(pair[0]), usize::from(pair[1]));
        if first >= nodes || second >= nodes {
            return Err(Refusal::at(5, place));
        }
        if first == second {
            return Err(Refusal::at(6, place));
        }
        if links.contains(&(first, second)) || links.contains(&(second, first)) {
            return Err(Refusal::at(7, place));
        }
        links.push((first, second));
    }
    Ok(links)
}
