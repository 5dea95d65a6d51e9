//! The state of a table's nodes and directions, and its image in bytes.

use crate::upload::Table;

#[derive(Clone, Copy, Debug, PartialEq, Eq)]
pub struct Node {
    pub waiting: bool,
    pub contending: bool,
    pub root: bool,
}

#[derive(Clone, Copy, Debug, PartialEq, Eq)]
pub enum Message {
    Request,
    Acknowledgement,
}

#[derive(Clone, Copy, Debug, PartialEq, Eq)]
pub struct Direction {
    /// The source is a child of the target.
    pub child: bool,
    pub message: Option<Message>,
}

#[derive(Clone, Debug, PartialEq, Eq)]
pub struct State {
    pub nodes: Vec<Node>,
    pub directions: Vec<Direction>,
}

impl State {
    /// Every node waits; there is no other mark and no message.
    pub fn fresh(table: &Table) -> State {
        let node = Node {
            waiting: true,
            contending: false,
            root: false,
        };
        let direction = Direction {
            child: false,
            message: None,
        };
        State {
            nodes: vec![node; table.nodes],
            directions: vec![direction; table.directions()],
        }
    }

    /// The state of an image; none if the length is wrong or it is not sound.
    pub fn of_image(table: &Table, image: &[u8]) -> Option<State> {
        if image.len() != table.image_length() {
            return None;
        }
        let (node_bytes, direction_bytes) = image.split_at(table.nodes);
        let state = State {
            nodes: node_bytes
                .iter()
                .map(|&b| node_of(b))
                .collect::<Option<_>>()?,
            directions: direction_bytes
                .iter()
                .map(|&b| direction_of(b))
                .collect::<Option<_>>()?,
        };
        state.no_waiting_node_sends(table).then_some(state)
    }

    pub fn image(&self) -> Vec<u8> {
        let nodes = self.nodes.iter().map(|&n| node_byte(n));
        let directions = self.directions.iter().map(|&d| direction_byte(d));
        nodes.chain(directions).collect()
    }

    /// How many directions into a node lack child.
    pub fn unheard(&self, table: &Table, node: usize) -> usize {
        table
            .into(node)
            .iter()
            .filter(|&&d| !self.directions[d].child)
            .count()
    }

    fn no_waiting_node_sends(&self, table: &Table) -> bool {
        self.directions
            .iter()
            .enumerate()
            .all(|(number, direction)| {
                let (source, _) = table.ends(number);
                direction.message.is_none() || !self.nodes[source].waiting
            })
    }
}

fn node_of(byte: u8) -> Option<Node> {
    (byte <= 7).then_some(Node {
        waiting: byte & 1 != 0,
        contending: byte & 2 != 0,
        root: byte & 4 != 0,
    })
}

fn node_byte(node: Node) -> u8 {
    u8::from(node.waiting) + 2 * u8::from(node.contending) + 4 * u8::from(node.root)
}

fn direction_of(byte: u8) -> Option<Direction> {
    let message = match byte / 2 {
        0 => None,
        1 => Some(Message::Request),
        2 => Some(Message::Acknowledgement),
        _ => return None,
    };
    Some(Direction {
        child: byte % 2 == 1,
        message,
    })
}

fn direction_byte(direction: Direction) -> u8 {
    let message = match direction.message {
        None => 0,
        Some(Message::Request) => 1,
        Some(Message::Acknowledgement) => 2,
    };
    u8::from(direction.child) + 2 * message
}
