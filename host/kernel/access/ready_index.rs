//! Sets and shows the root of a ready tree.

use super::Tree;

impl<I: Copy> Tree<I> {
    pub(crate) const fn of_any(root: Option<I>) -> Self {
        Self { root }
    }

    pub(crate) const fn root(&self) -> Option<I> {
        self.root
    }
}
