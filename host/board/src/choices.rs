//! The choices that words number.

/// A choice with its numbers, the last one behind a semicolon: a number beyond it stands for it too.
macro_rules! numbered {
    ($(#[$doc:meta])* $name:ident {
        $($(#[$of:meta])* $variant:ident = $number:literal),*;
        $(#[$last_doc:meta])* $last:ident = $last_number:literal
    }) => {
        $(#[$doc])*
        #[derive(Clone, Copy, Debug, PartialEq, Eq, Hash)]
        #[repr(u64)]
        pub enum $name {
            $($(#[$of])* $variant = $number,)*
            $(#[$last_doc])*
            $last = $last_number,
        }

        impl $name {
            /// What a word stands for: a number beyond the last stands for the last.
            pub const fn from_word(word: u64) -> Self {
                match word {
                    $($number => Self::$variant,)*
                    _ => Self::$last,
                }
            }

            /// Its number.
            pub const fn word(self) -> u64 {
                self as u64
            }
        }
    };
}

numbered! {
    /// By which algorithm a thread is scheduled.
    Policy {
        /// By its priority, 0 to 255, the least first; among equal ones by turn.
        Fifo = 0,
        /// By its pass or in turn, a slice at a time.
        Fair = 1,
        /// A budget in each period.
        Budget = 2;
        /// Runs where nobody else does; it is never queued.
        Idle = 3
    }
}

numbered! {
    /// What a thread may claim of the window, whatever its policy.
    Role {
        /// Nothing. A FIFO thread of this role is strict: it comes before all others.
        Ordinary = 0,
        /// The priority allowance.
        Priority = 1;
        /// The protected floor.
        Protected = 2
    }
}

numbered! {
    /// How Fair threads are ordered; one for all Fair threads of a queue.
    Backend {
        /// By pass, the least first.
        Stride = 0;
        /// In turn.
        RoundRobin = 1
    }
}

numbered! {
    /// Why a thread runs, and so what its time is charged to.
    Mode {
        /// FIFO of role Ordinary.
        StrictFifo = 0,
        /// On the window's allowance.
        Priority = 1,
        /// Protection is due.
        Protected = 2,
        /// By the rank of its policy.
        Ordinary = 3;
        /// A budget is exhausted, and nobody else wants the time.
        Borrow = 4
    }
}

impl Mode {
    /// Its name, as a line of text has it.
    pub const fn name(self) -> &'static str {
        match self {
            Self::StrictFifo => "strict FIFO",
            Self::Priority => "priority",
            Self::Protected => "protected",
            Self::Ordinary => "ordinary",
            Self::Borrow => "borrow",
        }
    }
}
