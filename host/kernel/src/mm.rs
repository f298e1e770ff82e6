//! Stand-in for kernel memory: stacks without storage.
#![allow(dead_code)]

pub mod stack {
    pub struct KernelStack;

    #[derive(Clone, Copy, Debug, Eq, PartialEq)]
    pub struct StackStatistics;

    pub const fn thread_stack_bytes() -> usize {
        0
    }

    impl KernelStack {
        pub fn allocate_thread() -> Result<Self, ()> {
            Ok(Self)
        }

        pub fn top(&self) -> usize {
            0
        }

        pub fn physical_top(&self) -> u64 {
            0
        }

        pub fn bounds(&self) -> (usize, usize) {
            (0, 0)
        }

        pub fn statistics(&self) -> StackStatistics {
            StackStatistics
        }
    }
}
