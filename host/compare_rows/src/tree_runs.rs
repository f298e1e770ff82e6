//! Trees: every order of few keys, seeded runs, and damaged tables.

use kernel::oracle::*;

use crate::trees::{Call, LargeTree, Tree};
use tables::generator::Random;
use tables::make::{self, Kind};
use tables::tally::Tally;
use tables::values::Picks;

/// Every order of removing the threads that are left.
fn removals(tally: &mut Tally, tree: &Tree, left: u64) {
    for place in (0..64).filter(|place| left >> place & 1 == 1) {
        let mut next = tree.clone();
        let _ = next.call(tally, Call::Remove(place));
        let _ = next.call(tally, Call::First);
        removals(tally, &next, left & !(1 << place));
    }
}

/// Every order of inserting the threads that are not in; then an equal key, and every order of removal.
fn insertions(tally: &mut Tally, tree: &Tree, inserted: u64, count: u64, and_remove: bool) {
    if inserted + 1 == 1 << count {
        let mut full = tree.clone();
        for place in 0..count {
            let _ = full.call(tally, Call::Contains(place));
            let _ = full.call(tally, Call::Insert(place));
        }
        if and_remove {
            removals(tally, tree, inserted);
        }
    }
    for place in (0..count).filter(|place| inserted >> place & 1 == 0) {
        let mut next = tree.clone();
        let _ = next.call(tally, Call::Contains(place));
        let _ = next.call(tally, Call::Remove(place));
        let _ = next.call(tally, Call::Insert(place));
        let _ = next.call(tally, Call::First);
        insertions(tally, &next, inserted | 1 << place, count, and_remove);
    }
}

/// All insertion orders of up to 7 keys, with all removal orders for up to 6.
pub fn every_order(tally: &mut Tally) {
    let kinds = Kind::ALL.iter().cycle();
    for (count, kind) in (1..=7).zip(kinds) {
        let mut random = Random::new(count);
        let records = (0..count).map(|_| make::record(&mut random, *kind));
        let tree = Tree::of(records.collect(), None);
        insertions(tally, &tree, 0, count, count <= 6);
    }
}

fn any_call(random: &mut Random, count: u64, growing: bool) -> Call {
    let place = match random.below(64) {
        0 => random.of([count, count + 1, u64::MAX]),
        _ => random.below(count),
    };
    match random.below(16) {
        0 => Call::First,
        1 | 2 => Call::Contains(place),
        3..=9 => [Call::Remove(place), Call::Insert(place)][usize::from(growing)],
        _ => [Call::Insert(place), Call::Remove(place)][usize::from(random.below(3) == 0)],
    }
}

/// Grows and shrinks a tree of this many records, the source on the records themselves.
pub fn seeded(tally: &mut Tally, random: &mut Random, count: u64, calls: u64) {
    let kind = random.of(Kind::ALL);
    let records = (0..count).map(|_| make::record(random, kind));
    let mut tree = Tree::of(records.collect(), None);
    for number in 0..calls {
        let growing = number / (2 * count + 8) % 2 == 0;
        let _ = tree.call(tally, any_call(random, count, growing));
    }
}

/// Fills a large tree in any order, with other calls between, and takes much of it out again.
pub fn large(tally: &mut Tally, random: &mut Random, count: u64) {
    let kind = random.of(Kind::ALL);
    let records: Vec<Record> = (0..count).map(|_| make::record(random, kind)).collect();
    let mut tree = LargeTree::of(&records);
    let mut order: Vec<u64> = (0..count).collect();
    for place in (1..order.len()).rev() {
        order.swap(place, random.below(place as u64 + 1) as usize);
    }
    for (step, place) in order.into_iter().enumerate() {
        tree.call(tally, (kind, count, step), Call::Insert(place));
        if random.below(8) == 0 {
            let call = any_call(random, count, true);
            tree.call(tally, (kind, count, step), call);
        }
    }
    for step in 0..count / 4 {
        let call = any_call(random, count, false);
        tree.call(tally, (kind, count, step), call);
    }
}

/// Each call, on a copy of the tree for each thread and for numbers outside the table.
fn each_call(tally: &mut Tally, tree: &Tree) {
    let count = tree.table.records.len() as u64;
    let _ = tree.clone().call(tally, Call::First);
    for place in (0..count).chain([count, u64::MAX]) {
        let _ = tree.clone().call(tally, Call::Contains(place));
        let _ = tree.clone().call(tally, Call::Insert(place));
        let _ = tree.clone().call(tally, Call::Remove(place));
    }
}

/// Tables at the most records and beyond, numbers inside and outside them, and roots so too.
pub fn limits(tally: &mut Tally) {
    for count in [4096, 4097, 5000] {
        for root in [None, Some(0), Some(4095), Some(4096), Some(u64::MAX)] {
            let mut tree = Tree::of(vec![make::by_turn(7); count], root);
            let _ = tree.call(tally, Call::First);
            for place in [0, 4095, 4096, 4097, 5000, u64::MAX] {
                let _ = tree.call(tally, Call::Contains(place));
                let _ = tree.call(tally, Call::Insert(place));
                let _ = tree.call(tally, Call::Remove(place));
            }
        }
    }
}

/// A sound tree with some links and heights overwritten, or links and heights at random from the start.
pub fn damaged(tally: &mut Tally, random: &mut Random) {
    let count = 1 + random.below(12);
    let kind = random.of(Kind::ALL);
    let records = (0..count).map(|_| make::record(random, kind));
    let mut tree = Tree::of(records.collect(), None);
    for _ in 0..2 * count {
        let place = random.below(count);
        let _ = tree.call(tally, Call::Insert(place));
    }
    let mut records = tree.table.records;
    let changes = random.of([1, 1, 2, 3, count, 3 * count]);
    for _ in 0..changes {
        let place = random.below(count) as usize;
        let links = &mut records[place].tree;
        match random.below(3) {
            0 => links.left = make::link(random, count),
            1 => links.right = make::link(random, count),
            _ => links.height = make::height(random),
        }
    }
    let root = match random.below(4) {
        0 => make::link(random, count),
        _ => tree.root,
    };
    let tree = Tree::of(records, root);
    each_call(tally, &tree);
    let mut tree = tree;
    for _ in 0..8 {
        let _ = tree.call(tally, any_call(random, count, true));
    }
}

/// Some nodes in line to the right, then one with a leaf at its left and at its right a line to the left; `below`
/// more nodes that stand in no tree. Turns are in key order, with room between.
fn line(right: u64, left: u64, below: u64, height: u8) -> Tree {
    let fork = right;
    let count = right + 3 + left;
    let turn = |place: u64| match place {
        _ if place <= fork => 10 * (place + 1) + 10 * u64::from(place == fork),
        _ if place == fork + 1 => 10 * (fork + 1),
        _ => 10_000 - 10 * place,
    };
    let mut records: Vec<Record> = (0..count).map(|place| make::by_turn(turn(place))).collect();
    for (place, record) in records.iter_mut().enumerate() {
        let place = place as u64;
        record.tree = Links {
            left: match place {
                _ if place == fork => Some(fork + 1),
                _ if place > fork + 1 && place + 1 < count => Some(place + 1),
                _ => None,
            },
            right: match place {
                _ if place < fork => Some(place + 1),
                _ if place == fork => Some(fork + 2),
                _ => None,
            },
            height,
        };
    }
    records.extend((0..below).map(|place| make::by_turn([0, 5, 20_000, 9_000][place as usize])));
    Tree::of(records, Some(0))
}

/// Paths at MAX_PATH: a 40th entry is taken, a 41st is not; a removal's successor path counts as well.
pub fn long_paths(tally: &mut Tally) {
    for height in [1, 40, 200, 254, 255] {
        for count in 37..=43 {
            for side in 0..3 {
                let records = make::chain(count, side, height);
                each_call(tally, &Tree::of(records, Some(0)));
            }
        }
        for (right, left) in [
            (0, 37),
            (0, 39),
            (0, 40),
            (0, 41),
            (20, 18),
            (20, 19),
            (20, 20),
            (20, 21),
            (38, 0),
            (38, 1),
            (38, 2),
            (39, 0),
            (39, 1),
            (40, 0),
            (40, 1),
            (41, 0),
        ] {
            each_call(tally, &line(right, left, 4, height));
        }
    }
}
