//! The source's trees beside those of the books: insertion and removal by balance factors, written from Knuth, The Art
//! of Computer Programming 3, 6.2.3 (Algorithm A, after Adelson-Velsky and Landis; deletion with the three cases of
//! rebalancing) and 6.2.2 (Algorithm D: a node with two subtrees gives way to its successor). It stores no heights and
//! turns only where a factor leaves -1 to 1, while the source stores heights and balances every node on the way up.
#![cfg(not(feature = "unchanged"))]

use kernel::oracle::{Links, Node, tree_insert, tree_remove};

type Tree = Option<Box<Knot>>;

/// The factor is the right height less the left one.
#[derive(Clone)]
struct Knot {
    key: u64,
    factor: i8,
    left: Tree,
    right: Tree,
}

fn leaf(key: u64) -> Tree {
    Some(Box::new(Knot {
        key,
        factor: 0,
        left: None,
        right: None,
    }))
}

fn turn_left(mut top: Box<Knot>) -> Box<Knot> {
    let mut up = top.right.take().expect("a right child");
    top.right = up.left.take();
    up.left = Some(top);
    up
}

fn turn_right(mut top: Box<Knot>) -> Box<Knot> {
    let mut up = top.left.take().expect("a left child");
    top.left = up.right.take();
    up.right = Some(top);
    up
}

/// A node whose factor is 2 or -2, and whether the tree is lower afterwards: a single turn where the child leans the
/// same way or not at all, else a double one.
fn turned(mut top: Box<Knot>) -> (Box<Knot>, bool) {
    let side = top.factor.signum();
    let child = if side > 0 { &top.right } else { &top.left };
    let lean = child.as_ref().expect("the higher side").factor;
    if lean == -side {
        let inner = if side > 0 {
            let right = turn_right(top.right.take().unwrap());
            let lean = right.factor;
            top.right = Some(right);
            lean
        } else {
            let left = turn_left(top.left.take().unwrap());
            let lean = left.factor;
            top.left = Some(left);
            lean
        };
        let mut up = if side > 0 {
            turn_left(top)
        } else {
            turn_right(top)
        };
        up.left.as_mut().unwrap().factor = if inner > 0 { -1 } else { 0 };
        up.right.as_mut().unwrap().factor = if inner < 0 { 1 } else { 0 };
        up.factor = 0;
        return (up, true);
    }
    let mut up = if side > 0 {
        turn_left(top)
    } else {
        turn_right(top)
    };
    let down = if side > 0 {
        up.left.as_mut()
    } else {
        up.right.as_mut()
    };
    down.unwrap().factor = if lean == 0 { side } else { 0 };
    up.factor = if lean == 0 { -side } else { 0 };
    (up, lean != 0)
}

/// The tree with the key, and whether it is higher.
fn with(tree: Tree, key: u64) -> (Tree, bool) {
    let Some(mut top) = tree else {
        return (leaf(key), true);
    };
    let right = key > top.key;
    let side = if right { &mut top.right } else { &mut top.left };
    let (grown, higher) = with(side.take(), key);
    *side = grown;
    if !higher {
        return (Some(top), false);
    }
    top.factor += if right { 1 } else { -1 };
    match top.factor {
        0 => (Some(top), false),
        -1 | 1 => (Some(top), true),
        _ => (Some(turned(top).0), false),
    }
}

/// A node of which one side is lower by one, and whether the tree is.
fn lowered(mut top: Box<Knot>, right: bool) -> (Tree, bool) {
    top.factor += if right { -1 } else { 1 };
    match top.factor {
        0 => (Some(top), true),
        -1 | 1 => (Some(top), false),
        _ => {
            let (up, lower) = turned(top);
            (Some(up), lower)
        }
    }
}

/// The least key taken out of a tree, and whether the rest is lower.
fn without_least(mut top: Box<Knot>) -> (u64, Tree, bool) {
    let Some(left) = top.left.take() else {
        return (top.key, top.right.take(), true);
    };
    let (least, rest, lower) = without_least(left);
    top.left = rest;
    if !lower {
        return (least, Some(top), false);
    }
    let (tree, lower) = lowered(top, false);
    (least, tree, lower)
}

/// The tree without the key, and whether it is lower.
fn without(tree: Tree, key: u64) -> (Tree, bool) {
    let mut top = tree.expect("the key is there");
    if key == top.key {
        let (Some(_), Some(_)) = (&top.left, &top.right) else {
            return (top.left.take().or(top.right.take()), true);
        };
        let (next, rest, lower) = without_least(top.right.take().unwrap());
        top.key = next;
        top.right = rest;
        return if lower {
            lowered(top, true)
        } else {
            (Some(top), false)
        };
    }
    let right = key > top.key;
    let side = if right { &mut top.right } else { &mut top.left };
    let (rest, lower) = without(side.take(), key);
    *side = rest;
    if lower {
        lowered(top, right)
    } else {
        (Some(top), false)
    }
}

/// The height, where the source's links make the same tree with right heights.
fn same(tree: &Tree, at: Option<u64>, table: &[Node]) -> Option<u8> {
    let (Some(knot), Some(id)) = (tree, at) else {
        return (tree.is_none() && at.is_none()).then_some(0);
    };
    let links = table[id as usize].links;
    let left = same(&knot.left, links.left, table)?;
    let right = same(&knot.right, links.right, table)?;
    let height = left.max(right) + 1;
    (knot.key == id && links.height == height && knot.factor == right as i8 - left as i8)
        .then_some(height)
}

fn orders(n: u64) -> Vec<Vec<u64>> {
    if n == 0 {
        return vec![vec![]];
    }
    let mut found = Vec::new();
    for shorter in orders(n - 1) {
        for place in 0..=shorter.len() {
            let mut order = shorter.clone();
            order.insert(place, n - 1);
            found.push(order);
        }
    }
    found
}

fn table(n: u64) -> Vec<Node> {
    let node = |id| Node {
        key: (u128::from(id), 0, 0, id),
        links: Links::EMPTY,
    };
    (0..n).map(node).collect()
}

fn grown(order: &[u64]) -> (Tree, Option<u64>, Vec<Node>) {
    let (mut tree, mut root, mut nodes) = (None, None, table(order.len() as u64));
    for key in order {
        tree = with(tree, *key).0;
        tree_insert(&mut root, &mut nodes, *key).unwrap();
        assert!(
            same(&tree, root, &nodes).is_some(),
            "{order:?}: {key} inserted"
        );
    }
    (tree, root, nodes)
}

#[test]
fn small_trees_are_those_of_the_books() {
    for n in 1..=7 {
        let removals = orders(n.min(5));
        for order in orders(n) {
            let (tree, root, nodes) = grown(&order);
            for removal in &removals {
                let (mut tree, mut root, mut nodes) = (tree.clone(), root, nodes.clone());
                for place in removal {
                    let key = order[*place as usize];
                    tree = without(tree, key).0;
                    tree_remove(&mut root, &mut nodes, key).unwrap();
                    assert!(
                        same(&tree, root, &nodes).is_some(),
                        "{order:?}: {key} removed"
                    );
                }
            }
        }
    }
}

#[test]
fn large_trees_are_those_of_the_books() {
    let mut state = 1_u64;
    let mut below = |end: u64| {
        state ^= state << 13;
        state ^= state >> 7;
        state ^= state << 17;
        state % end
    };
    let (mut tree, mut root, mut nodes) = (None, None, table(4_096));
    let mut held = vec![false; 4_096];
    for round in 0..200_000 {
        let key = below(4_096);
        if held[key as usize] {
            tree = without(tree, key).0;
            tree_remove(&mut root, &mut nodes, key).unwrap();
        } else {
            tree = with(tree, key).0;
            tree_insert(&mut root, &mut nodes, key).unwrap();
        }
        held[key as usize] ^= true;
        if round % 500 == 0 {
            assert!(same(&tree, root, &nodes).is_some(), "round {round}: {key}");
        }
    }
    assert!(same(&tree, root, &nodes).is_some());
}
