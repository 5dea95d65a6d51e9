//! Drafts: uploads and batches before they are bytes. A draft may be wrong.

use crate::batch::header_length;
use crate::upload::Table;

/// An upload in parts.
#[derive(Clone, Debug)]
pub struct Draft {
    pub nodes: u8,
    pub links: Vec<(u8, u8)>,
    pub actions: Vec<[u8; 3]>,
}

impl Draft {
    pub fn new(nodes: u8, links: &[(u8, u8)], actions: &[[u8; 3]]) -> Draft {
        Draft {
            nodes,
            links: links.to_vec(),
            actions: actions.to_vec(),
        }
    }

    /// The upload whose counts are those of the lists.
    pub fn bytes(&self) -> Vec<u8> {
        let mut out = vec![self.nodes, self.links.len() as u8];
        out.extend((self.actions.len() as u16).to_be_bytes());
        out.extend(
            self.links
                .iter()
                .flat_map(|&(first, second)| [first, second]),
        );
        out.extend(self.actions.iter().flatten());
        out
    }

    /// The table of a draft whose links name only its own nodes.
    pub fn table(&self) -> Table {
        let links = self
            .links
            .iter()
            .map(|&(x, y)| (usize::from(x), usize::from(y)))
            .collect();
        Table::new(usize::from(self.nodes), links)
    }
}

/// A batch in parts.
#[derive(Clone, Debug)]
pub struct BatchDraft {
    pub count: u32,
    /// Offset and length of each entry.
    pub entries: Vec<(u32, u32)>,
    /// All that follows the entries.
    pub body: Vec<u8>,
}

impl BatchDraft {
    /// The uploads one after another, one entry for each, in order.
    pub fn of_uploads(uploads: &[Vec<u8>]) -> BatchDraft {
        let mut draft = BatchDraft {
            count: uploads.len() as u32,
            entries: Vec::new(),
            body: Vec::new(),
        };
        for upload in uploads {
            let offset = header_length(uploads.len()) + draft.body.len();
            draft.entries.push((offset as u32, upload.len() as u32));
            draft.body.extend(upload);
        }
        draft
    }

    pub fn bytes(&self) -> Vec<u8> {
        let mut out = self.count.to_be_bytes().to_vec();
        for &(offset, length) in &self.entries {
            out.extend(offset.to_be_bytes());
            out.extend(length.to_be_bytes());
        }
        out.extend(&self.body);
        out
    }

    pub fn length(&self) -> usize {
        header_length(self.entries.len()) + self.body.len()
    }
}
