//! Stand-in for the kernel's support crate: processor numbers, boxes, locks and the invariant stop.

/// Sizes that the thread object checks at compile time.
pub mod abi {
    pub mod native {
        pub const HYPER_NATIVE_PROCESS_NAME_MAX_BYTES: u64 = 32;
        pub const HYPER_NATIVE_THREAD_NAME_MAX_BYTES: u64 = 32;
    }
}

pub mod cpu {
    pub const MAX_CPUS: usize = 256;

    #[derive(Clone, Copy, Debug, Eq, PartialEq)]
    pub struct CpuIndex(usize);

    impl CpuIndex {
        pub const fn new(index: usize) -> Option<Self> {
            if index < MAX_CPUS {
                Some(Self(index))
            } else {
                None
            }
        }

        pub const fn get(self) -> usize {
            self.0
        }
    }

    impl From<u8> for CpuIndex {
        fn from(index: u8) -> Self {
            Self(usize::from(index))
        }
    }

    pub struct PerCpu<T>([T; MAX_CPUS]);

    impl<T> PerCpu<T> {
        pub const fn new(slots: [T; MAX_CPUS]) -> Self {
            Self(slots)
        }
    }

    impl<T> core::ops::Index<CpuIndex> for PerCpu<T> {
        type Output = T;

        fn index(&self, cpu: CpuIndex) -> &T {
            &self.0[cpu.0]
        }
    }
}

pub mod debug {
    /// Payload of the panic that stands for a kernel stop.
    #[derive(Clone, Copy, Debug, Eq, PartialEq)]
    pub struct InvariantFailure(pub &'static str);

    pub fn invariant_failure(message: &'static str) -> ! {
        std::panic::panic_any(InvariantFailure(message))
    }
}

pub mod mm {
    pub fn try_box<T>(value: T) -> Result<Box<T>, ()> {
        Ok(Box::new(value))
    }
}

pub mod sync {
    pub use core::sync::atomic;

    use core::marker::PhantomData;
    use std::sync::{Mutex, PoisonError};

    /// A plain mutex: the host has no interrupts to mask.
    pub struct InterruptSpinLock<T, M> {
        value: Mutex<T>,
        mask: PhantomData<fn() -> M>,
    }

    impl<T, M> InterruptSpinLock<T, M> {
        pub const fn new(value: T) -> Self {
            Self {
                value: Mutex::new(value),
                mask: PhantomData,
            }
        }

        pub fn with<R>(&self, operation: impl FnOnce(&mut T) -> R) -> R {
            let mut value = self.value.lock().unwrap_or_else(PoisonError::into_inner);
            operation(&mut value)
        }
    }
}
