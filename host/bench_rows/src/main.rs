//! A tree of N nodes, from which a thread is removed and inserted again, C times: `bench_rows --side SIDE --nodes N
//! --calls C`, with `--kind fifo|stride|round-robin|budget` for the records' policy (stride where it is not given).
//!
//! SIDE is port (the port through C, on rows), rust (the kernel's Rust over a slice of nodes with their keys stored) or
//! records (the kernel's Rust over its own records, whose keys it reads by `ready_index_key`). Keys and order of calls
//! are the same for all;
//! `instructions` counts what `bench_insert` and `bench_remove` take.

#[path = "../../compare_rows/src/calls.rs"]
#[allow(dead_code)]
mod calls;

include!(concat!(env!("OUT_DIR"), "/source.rs"));

use std::env;
use std::hint::black_box;
use std::process::ExitCode;

use calls::{LinkWords, rows_index_insert, rows_index_remove};
use kernel::oracle::{KeptTree, Record, TreeKey, record_tree_key};
use ready_index::{Links, MutationScratch, Nodes, Tree};
use tables::generator::Random;
use tables::make;
use tables::rows::{self, Path, Row};
use tables::values::Picks;

trait Side {
    fn insert(&mut self, id: u64);
    fn remove(&mut self, id: u64);
}

struct Port {
    rows: Vec<Row>,
    path: Path,
    root: LinkWords,
}

struct Node {
    key: TreeKey,
    links: Links<u64>,
}

struct Rust {
    nodes: Table,
    scratch: MutationScratch<u64>,
    tree: Tree<u64>,
}

struct Table(Vec<Node>);

#[derive(Debug)]
enum Failure {
    NotFound,
    Corrupt,
}

impl Nodes for Table {
    type Id = u64;
    type Key = TreeKey;
    type Error = Failure;

    fn key(&mut self, id: u64) -> Result<TreeKey, Failure> {
        let node = self.0.get(id as usize).ok_or(Failure::NotFound)?;
        Ok(node.key)
    }

    fn links(&mut self, id: u64) -> Result<Links<u64>, Failure> {
        let node = self.0.get(id as usize).ok_or(Failure::NotFound)?;
        Ok(node.links)
    }

    fn set_links(&mut self, id: u64, links: Links<u64>) -> Result<(), Failure> {
        let node = self.0.get_mut(id as usize).ok_or(Failure::NotFound)?;
        node.links = links;
        Ok(())
    }

    fn corrupt(&self) -> Failure {
        Failure::Corrupt
    }
}

impl Port {
    fn of(records: &[Record]) -> Self {
        Self {
            rows: records.iter().map(rows::row_of).collect(),
            path: [[0; 2]; 40],
            root: LinkWords { some: 0, number: 0 },
        }
    }
}

impl Side for Port {
    fn insert(&mut self, id: u64) {
        let (t, count) = (self.rows.as_mut_ptr(), self.rows.len());
        let LinkWords { some, number } = self.root;
        // SAFETY: the address and the count are those of the rows, and the path is lent.
        let given = unsafe { rows_index_insert(t, count, &mut self.path, some, number, id) };
        assert_eq!(given.number, 0);
        self.root = given.thread;
    }

    fn remove(&mut self, id: u64) {
        let (t, count) = (self.rows.as_mut_ptr(), self.rows.len());
        let LinkWords { some, number } = self.root;
        // SAFETY: the address and the count are those of the rows, and the path is lent.
        let given = unsafe { rows_index_remove(t, count, &mut self.path, some, number, id) };
        assert_eq!(given.number, 0);
        self.root = given.thread;
    }
}

impl Rust {
    fn of(records: &[Record]) -> Self {
        let node = |(record, place): (&Record, u64)| Node {
            key: record_tree_key(record, place),
            links: Links::EMPTY,
        };
        Self {
            nodes: Table(records.iter().zip(0..).map(node).collect()),
            scratch: MutationScratch::new(0),
            tree: Tree::new(),
        }
    }
}

impl Side for Rust {
    fn insert(&mut self, id: u64) {
        let done = self.tree.insert(&mut self.nodes, id, &mut self.scratch);
        done.expect("an accepted insertion");
    }

    fn remove(&mut self, id: u64) {
        let done = self.tree.remove(&mut self.nodes, id, &mut self.scratch);
        done.expect("an accepted removal");
    }
}

impl Side for KeptTree {
    fn insert(&mut self, id: u64) {
        KeptTree::insert(self, id).expect("an accepted insertion");
    }

    fn remove(&mut self, id: u64) {
        KeptTree::remove(self, id).expect("an accepted removal");
    }
}

// The names by which callgrind starts and ends its count.
#[inline(never)]
fn bench_insert(side: &mut impl Side, id: u64) {
    side.insert(id);
}

#[inline(never)]
fn bench_remove(side: &mut impl Side, id: u64) {
    side.remove(id);
}

fn run(mut side: impl Side, mut random: Random, nodes: u64, calls: u64) {
    for id in 0..nodes {
        side.insert(id);
    }
    for _ in 0..calls {
        let id = black_box(random.below(nodes));
        bench_remove(&mut side, id);
        bench_insert(&mut side, id);
    }
}

fn kind_of(name: &str) -> Option<make::Kind> {
    match name {
        "fifo" => Some(make::Kind::Fifo),
        "stride" => Some(make::Kind::Stride),
        "round-robin" => Some(make::Kind::RoundRobin),
        "budget" => Some(make::Kind::Budget),
        _ => None,
    }
}

fn bench(side: &str, kind: make::Kind, nodes: u64, calls: u64) -> Option<()> {
    let mut random = Random::new(1);
    let records: Vec<Record> = (0..nodes)
        .map(|_| make::record(&mut random, kind))
        .collect();
    match side {
        "port" => run(Port::of(&records), random, nodes, calls),
        "rust" => run(Rust::of(&records), random, nodes, calls),
        "records" => run(KeptTree::of(&records), random, nodes, calls),
        _ => return None,
    }
    Some(())
}

fn main() -> ExitCode {
    let words: Vec<String> = env::args().collect();
    let value = |name: &str| {
        let place = words.iter().position(|word| word == name)?;
        words.get(place + 1).map(String::as_str)
    };
    let ran = || {
        let nodes = value("--nodes")?.parse().ok()?;
        let calls = value("--calls")?.parse().ok()?;
        let kind = kind_of(value("--kind").unwrap_or("stride"))?;
        bench(value("--side")?, kind, nodes, calls)
    };
    match ran() {
        Some(()) => ExitCode::SUCCESS,
        None => {
            eprintln!(
                "usage: bench_rows --side port|rust|records --nodes N --calls C [--kind KIND]"
            );
            ExitCode::from(2)
        }
    }
}
