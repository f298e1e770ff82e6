//! One call of a tree on both sides.

use kernel::oracle::*;

use crate::port;
use tables::bytes::{rows_of, same_rows};
use tables::named;
use tables::rows::{Row, TREE_WORDS, record_of, tree_words};
use tables::table::{Answer, Table, expected, refused};
use tables::tally::Tally;

#[derive(Clone, Copy, Debug)]
pub enum Call {
    First,
    Contains(u64),
    Insert(u64),
    Remove(u64),
}

/// The thread or the truth that a call names, or none.
type Given = Answer<Option<u64>>;

impl Call {
    fn name(self, given: Given) -> &'static str {
        let number = given.err().unwrap_or(0);
        match self {
            Self::First => named!("Tree::first", number),
            Self::Contains(_) => named!("Tree::contains", number),
            Self::Insert(_) => named!("Tree::insert", number),
            Self::Remove(_) => named!("Tree::remove", number),
        }
    }

    /// The thread that the call names.
    fn id(self) -> Option<u64> {
        match self {
            Self::First => None,
            Self::Contains(id) | Self::Insert(id) | Self::Remove(id) => Some(id),
        }
    }

    fn by_port(self, rows: &mut [Row], root: &mut Option<u64>) -> Given {
        match self {
            Self::First => port::first(rows, *root),
            Self::Contains(id) => port::contains(rows, *root, id).map(|b| Some(b.into())),
            Self::Insert(id) => port::insert(rows, root, id).map(|()| None),
            Self::Remove(id) => port::remove(rows, root, id).map(|()| None),
        }
    }

    /// Document 01's refusals that come before the source's own, then the source.
    fn by_records(self, records: &mut [Record], root: &mut Option<u64>) -> Given {
        if let Some(number) = refused(records.len(), self.id()) {
            return Err(number);
        }
        match self {
            Self::First => expected(index_first(*root, records)),
            Self::Contains(id) => {
                expected(index_contains(*root, records, id)).map(|b| Some(b.into()))
            }
            Self::Insert(id) => expected(index_insert(root, records, id)).map(|()| None),
            Self::Remove(id) => expected(index_remove(root, records, id)).map(|()| None),
        }
    }

    fn by_nodes(self, nodes: &mut [Node], root: &mut Option<u64>) -> Given {
        if let Some(number) = refused(nodes.len(), self.id()) {
            return Err(number);
        }
        match self {
            Self::First => expected(tree_first(*root, nodes)),
            Self::Contains(id) => expected(tree_contains(*root, nodes, id)).map(|b| Some(b.into())),
            Self::Insert(id) => expected(tree_insert(root, nodes, id)).map(|()| None),
            Self::Remove(id) => expected(tree_remove(root, nodes, id)).map(|()| None),
        }
    }
}

/// A tree over records, whose keys are read by the source's `ready_index_key` in each call.
#[derive(Clone)]
pub struct Tree {
    pub table: Table,
    pub root: Option<u64>,
}

impl Tree {
    pub fn of(records: Vec<Record>, root: Option<u64>) -> Self {
        let table = Table::of(records);
        Self { table, root }
    }

    /// Makes the call on both sides and goes on from the source's table.
    pub fn call(&mut self, tally: &mut Tally, call: Call) -> Answer<Option<u64>> {
        let before = (call, self.root, self.table.shown());
        let (mut by_port, mut by_source) = (self.root, self.root);
        let port = call.by_port(&mut self.table.rows, &mut by_port);
        let source = call.by_records(&mut self.table.records, &mut by_source);
        let (left, wanted) = self.table.difference();
        let name = call.name(source);
        tally.compare(
            name,
            before,
            (port, by_port, left),
            (source, by_source, wanted),
        );
        if left.is_some() {
            self.table = Table::of(self.table.records.clone());
        }
        self.root = by_source;
        source
    }
}

/// A large tree: the source runs on plain nodes with the records' keys, which no call changes.
pub struct LargeTree {
    rows: Vec<Row>,
    wanted: Vec<Row>,
    nodes: Vec<Node>,
    root: Option<u64>,
}

impl LargeTree {
    pub fn of(records: &[Record]) -> Self {
        let rows = rows_of(records);
        let keyed = records.iter().zip(0..);
        let nodes = keyed.map(|(record, place)| Node {
            key: record_tree_key(record, place),
            links: record.tree,
        });
        Self {
            nodes: nodes.collect(),
            wanted: rows.clone(),
            rows,
            root: None,
        }
    }

    pub fn call(&mut self, tally: &mut Tally, run: impl core::fmt::Debug, call: Call) {
        let (mut by_port, mut by_source) = (self.root, self.root);
        let port = call.by_port(&mut self.rows, &mut by_port);
        let source = call.by_nodes(&mut self.nodes, &mut by_source);
        for (row, node) in self.wanted.iter_mut().zip(&self.nodes) {
            row[TREE_WORDS..TREE_WORDS + 5].copy_from_slice(&tree_words(node.links));
        }
        let mut pairs = self.rows.iter().zip(&self.wanted);
        let place = if same_rows(&self.rows, &self.wanted) {
            None
        } else {
            pairs.position(|(row, wanted)| record_of(row) != record_of(wanted))
        };
        let left = place.map(|place| (place, record_of(&self.rows[place])));
        let wanted = place.map(|place| (place, record_of(&self.wanted[place])));
        let name = call.name(source);
        tally.compare(
            name,
            (run, call),
            (port, by_port, left),
            (source, by_source, wanted),
        );
        if place.is_some() {
            self.rows.clone_from(&self.wanted);
        }
        self.root = by_source;
    }
}
