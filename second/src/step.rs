//! The five kinds of step: reading them from action bytes, when they are
//! possible, what they do, the list of them, and the report of a state.

use crate::answer::Report;
use crate::state::{Message, State};
use crate::upload::{reverse, Table};

/// A step that names nodes and directions of its table.
#[derive(Clone, Copy, Debug, PartialEq, Eq)]
pub enum Step {
    ChildrenKnown { node: usize },
    AddChild { direction: usize },
    Acknowledge { direction: usize },
    Resolve { direction: usize },
    Root { node: usize },
}

/// The step that three action bytes name, or refusal 9 or 10.
pub fn read(table: &Table, action: [u8; 3]) -> Result<Step, u32> {
    let [kind, x, y] = action;
    let (node_x, node_y) = (usize::from(x), usize::from(y));
    match kind {
        1 | 5 => {
            if node_x >= table.nodes || y != 255 {
                return Err(9);
            }
            if kind == 1 {
                Ok(Step::ChildrenKnown { node: node_x })
            } else {
                Ok(Step::Root { node: node_x })
            }
        }
        2..=4 => {
            if node_x >= table.nodes || node_y >= table.nodes {
                return Err(9);
            }
            let direction = table.direction(node_x, node_y).ok_or(10u32)?;
            match kind {
                2 => Ok(Step::AddChild { direction }),
                3 => Ok(Step::Acknowledge { direction }),
                _ => Ok(Step::Resolve { direction }),
            }
        }
        _ => Err(9),
    }
}

pub fn is_possible(table: &Table, state: &State, step: Step) -> bool {
    match step {
        Step::ChildrenKnown { node } => {
            state.nodes[node].waiting && state.unheard(table, node) <= 1
        }
        Step::AddChild { direction } => {
            let (_, target) = table.ends(direction);
            state.nodes[target].waiting && state.directions[direction].message.is_some()
        }
        Step::Acknowledge { direction } => {
            let (_, target) = table.ends(direction);
            !state.nodes[target].waiting && state.directions[direction].message.is_some()
        }
        Step::Resolve { direction } => {
            let (source, target) = table.ends(direction);
            state.nodes[source].contending && state.nodes[target].contending
        }
        Step::Root { node } => !state.nodes[node].root && state.unheard(table, node) == 0,
    }
}

/// The effect of a step that is possible.
pub fn take(table: &Table, state: &mut State, step: Step) {
    match step {
        Step::ChildrenKnown { node } => {
            state.nodes[node].waiting = false;
            for &inward in table.into(node) {
                let message = if state.directions[inward].child {
                    Message::Acknowledgement
                } else {
                    Message::Request
                };
                state.directions[reverse(inward)].message = Some(message);
            }
        }
        Step::AddChild { direction } => {
            state.directions[direction].child = true;
            state.directions[direction].message = None;
        }
        Step::Acknowledge { direction } => {
            let (_, target) = table.ends(direction);
            let message = state.directions[direction].message.take();
            state.nodes[target].contending = message == Some(Message::Request);
        }
        Step::Resolve { direction } => {
            let (source, target) = table.ends(direction);
            state.directions[direction].child = true;
            state.nodes[source].contending = false;
            state.nodes[target].contending = false;
        }
        Step::Root { node } => state.nodes[node].root = true,
    }
}

/// The action bytes of a step. Node numbers are at most 62.
pub fn bytes(table: &Table, step: Step) -> [u8; 3] {
    let one = |kind: u8, node: usize| [kind, node as u8, 255];
    let two = |kind: u8, direction: usize| {
        let (source, target) = table.ends(direction);
        [kind, source as u8, target as u8]
    };
    match step {
        Step::ChildrenKnown { node } => one(1, node),
        Step::AddChild { direction } => two(2, direction),
        Step::Acknowledge { direction } => two(3, direction),
        Step::Resolve { direction } => two(4, direction),
        Step::Root { node } => one(5, node),
    }
}

/// The possible steps, ascending by their action bytes.
pub fn list(table: &Table, state: &State) -> Vec<Step> {
    let of_nodes =
        (0..table.nodes).flat_map(|node| [Step::ChildrenKnown { node }, Step::Root { node }]);
    let of_directions = (0..table.directions()).flat_map(|direction| {
        [
            Step::AddChild { direction },
            Step::Acknowledge { direction },
            Step::Resolve { direction },
        ]
    });
    let mut steps: Vec<Step> = of_nodes
        .chain(of_directions)
        .filter(|&s| is_possible(table, state, s))
        .collect();
    steps.sort_by_key(|&s| bytes(table, s));
    steps
}

pub fn report(table: &Table, state: &State) -> Report {
    let roots: Vec<usize> = (0..table.nodes).filter(|&x| state.nodes[x].root).collect();
    let waiting = state.nodes.iter().filter(|node| node.waiting).count();
    let moving = !list(table, state).is_empty();

    let outcome = if moving {
        1
    } else if roots.len() == 1 {
        2
    } else if roots.is_empty() && waiting > 0 && table.links.len() >= table.nodes {
        3
    } else {
        4
    };
    let root = roots.first().map_or(255, |&x| x as u32);
    Report {
        outcome,
        root,
        waiting: waiting as u32,
    }
}
