//! Ready trees over plain nodes, run by the source.

use super::stop::run;
use super::types::*;
use crate::task::scheduler::algorithms::ready_index::{
    Links as SourceLinks, MutationScratch, Nodes, Tree,
};

struct Lent<'a>(&'a mut [Node]);

impl Lent<'_> {
    fn at(&mut self, number: u64) -> Result<&mut Node, Refusal> {
        let place = usize::try_from(number).map_err(|_| Refusal::ThreadNotFound)?;
        self.0.get_mut(place).ok_or(Refusal::ThreadNotFound)
    }
}

impl Nodes for Lent<'_> {
    type Id = u64;
    type Key = TreeKey;
    type Error = Refusal;

    fn key(&mut self, id: u64) -> Result<TreeKey, Refusal> {
        self.at(id).map(|node| node.key)
    }

    fn links(&mut self, id: u64) -> Result<SourceLinks<u64>, Refusal> {
        self.at(id).map(|node| SourceLinks {
            left: node.links.left,
            right: node.links.right,
            height: node.links.height,
        })
    }

    fn set_links(&mut self, id: u64, links: SourceLinks<u64>) -> Result<(), Refusal> {
        self.at(id)?.links = Links {
            left: links.left,
            right: links.right,
            height: links.height,
        };
        Ok(())
    }

    fn corrupt(&self) -> Refusal {
        Refusal::QueueCorrupted
    }
}

fn answer<T>(call: impl FnOnce() -> Result<T, Refusal>) -> Answer<T> {
    run(call).unwrap_or_else(|panic| Err(Refusal::Halted(panic)))
}

/// `Tree::first`; the nodes stay as they are.
pub fn tree_first(root: Option<u64>, nodes: &mut [Node]) -> Answer<Option<u64>> {
    answer(|| Tree::of_any(root).first(&mut Lent(nodes)))
}

/// `Tree::contains`; the nodes stay as they are.
pub fn tree_contains(root: Option<u64>, nodes: &mut [Node], number: u64) -> Answer<bool> {
    answer(|| Tree::of_any(root).contains(&mut Lent(nodes), number))
}

/// `Tree::insert`; on a refusal the stores so far stay and the root is unchanged.
pub fn tree_insert(root: &mut Option<u64>, nodes: &mut [Node], number: u64) -> Answer<()> {
    answer(|| {
        let mut tree = Tree::of_any(*root);
        let result = tree.insert(&mut Lent(nodes), number, &mut MutationScratch::new(0));
        *root = tree.root();
        result
    })
}

/// `Tree::remove`; on a refusal the stores so far stay.
pub fn tree_remove(root: &mut Option<u64>, nodes: &mut [Node], number: u64) -> Answer<()> {
    answer(|| {
        let mut tree = Tree::of_any(*root);
        let result = tree.remove(&mut Lent(nodes), number, &mut MutationScratch::new(0));
        *root = tree.root();
        result
    })
}
