//! Module list of the kernel's task tree, with the parts that the used files only name.

pub(crate) mod external_execution;
pub(crate) mod policy;
pub(crate) mod scheduler;
pub(crate) mod thread;
pub(crate) mod thread_object;
pub(crate) mod wait;

pub(crate) struct ThreadWaitContext;

impl ThreadWaitContext {
    pub(crate) const fn new() -> Self {
        Self
    }
}
