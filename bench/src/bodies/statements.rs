//! Bodies of exactly 1,024 nodes, statement by statement.
use super::draft::{Draft, NIL, Node};

pub const NODES: usize = 1_024;
/// Items of a list or block.
pub const ITEMS: usize = 64;

/// Statements of a body, in blocks of blocks.
pub struct Statements {
    pub draft: Draft,
    made: Vec<usize>,
}

impl Statements {
    pub fn new() -> Self {
        Statements { draft: Draft::default(), made: Vec::new() }
    }

    pub fn emit(&mut self, node: Node) -> usize {
        self.draft.emit(node)
    }

    pub fn local(&mut self, node: usize) -> usize {
        self.draft.local(node)
    }

    pub fn state(&mut self, node: Node) -> usize {
        let node = self.emit(node);
        self.made.push(node);
        node
    }

    pub fn param(&mut self, ty: u16) -> usize {
        let node = self.emit(Node::Param(Some(ty)));
        self.draft.params.push(node);
        node
    }

    /// `a = b` of two locals.
    pub fn equate(&mut self, a: usize, b: usize) -> usize {
        let (a, b) = (self.local(a), self.local(b));
        self.state(Node::Assign(a, b))
    }

    /// Nodes that are still free, with room for the blocks around the statements.
    pub fn free(&self) -> usize {
        let blocks = 1 + self.made.len().div_ceil(ITEMS) + 1;
        (NODES - blocks).saturating_sub(self.draft.nodes.len())
    }

    /// The body file, with booleans up to exactly 1,024 nodes.
    pub fn finish(mut self) -> Vec<u8> {
        let blocks = |count: usize| if count > ITEMS { 1 + count.div_ceil(ITEMS) } else { 1 };
        while self.draft.nodes.len() + blocks(self.made.len() + 1) < NODES {
            self.state(Node::Bool);
        }
        // Where one more statement would need one more block, the last one gets a block around it.
        while self.draft.nodes.len() + blocks(self.made.len()) < NODES {
            let last = self.made.pop().unwrap();
            let wrapped = self.emit(Node::Block(None, vec![last]));
            self.made.push(wrapped);
        }
        let mut made = self.made;
        if made.len() > ITEMS {
            let parts: Vec<Vec<usize>> = made.chunks(ITEMS).map(<[_]>::to_vec).collect();
            made = parts.into_iter().map(|part| self.draft.emit(Node::Block(None, part))).collect();
        }
        self.draft.emit(Node::Block(None, made));
        assert_eq!(self.draft.nodes.len(), NODES);
        self.draft.result = NIL;
        self.draft.text()
    }
}
