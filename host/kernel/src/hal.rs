//! Stand-in for the machine layer: contexts, interrupt masks and virtual interrupts that do nothing.
#![allow(dead_code)]

pub mod context {
    pub struct ThreadContext;

    impl ThreadContext {
        pub const fn empty() -> Self {
            Self
        }

        pub fn prepare(&mut self, _top: usize, _entry: extern "C" fn(usize), _argument: usize) {}

        pub fn prepare_vcpu(
            &mut self,
            _top: usize,
            _entry: extern "C" fn(usize),
            _argument: usize,
        ) {
        }
    }
}

pub mod irq {
    pub struct LocalMask;
}

pub mod vm {
    #[derive(Clone, Copy, Debug, Eq, PartialEq)]
    pub struct VirtualInterruptError;
}
