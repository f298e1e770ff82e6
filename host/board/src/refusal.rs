//! Why a call was not made.

use core::fmt;

/// The refusals with their numbers in documents 01 and 02, each said once.
macro_rules! refusals {
    ($($(#[$doc:meta])* $name:ident = $number:literal, $words:literal;)*) => {
        /// Why a call was not made. Where several hold, the first of this order is answered: [`BadTable`],
        /// [`BadConfig`], [`Halted`], [`NoThread`], [`BadRecord`], [`BadState`] of an Idle thread, [`Already`],
        /// [`BadState`] of another processor's thread, [`Damaged`]; [`BackInTime`] and [`TurnsSpent`] come last. Of a
        /// lift record [`RecordOrder`] comes first, but where a run is recorded after [`BadTable`].
        ///
        /// A later version may have more of them.
        ///
        /// [`BadTable`]: Refusal::BadTable
        /// [`BadConfig`]: Refusal::BadConfig
        /// [`Halted`]: Refusal::Halted
        /// [`NoThread`]: Refusal::NoThread
        /// [`BadRecord`]: Refusal::BadRecord
        /// [`BadState`]: Refusal::BadState
        /// [`Already`]: Refusal::Already
        /// [`Damaged`]: Refusal::Damaged
        /// [`BackInTime`]: Refusal::BackInTime
        /// [`TurnsSpent`]: Refusal::TurnsSpent
        /// [`RecordOrder`]: Refusal::RecordOrder
        #[non_exhaustive]
        #[derive(Clone, Copy, Debug, PartialEq, Eq, Hash)]
        pub enum Refusal {
            $($(#[$doc])* $name,)*
            /// A number that this version of the package does not name: the library is a later one.
            Unknown(u64),
        }

        impl Refusal {
            /// The refusal of a number; none of 0, which is a call that was made.
            pub const fn from_number(number: u64) -> Option<Self> {
                match number {
                    0 => None,
                    $($number => Some(Self::$name),)*
                    _ => Some(Self::Unknown(number)),
                }
            }

            /// Its number in the documents, which the C call answers.
            pub const fn number(self) -> u64 {
                match self {
                    $(Self::$name => $number,)*
                    Self::Unknown(number) => number,
                }
            }

            /// Its name there.
            pub const fn name(self) -> &'static str {
                match self {
                    $(Self::$name => stringify!($name),)*
                    Self::Unknown(_) => "Unknown",
                }
            }

            const fn words(self) -> &'static str {
                match self {
                    $(Self::$name => $words,)*
                    Self::Unknown(_) => "a refusal of a later version",
                }
            }
        }
    };
}

refusals! {
    /// A link, head, tail or root does not agree with the table. Enqueue and remove leave everything as it was; a
    /// selection keeps its stores so far, while window and answer are as they were.
    Damaged = 1, "lists, trees or links do not agree with the table";
    /// An Idle thread, on enqueue or remove; on enqueue also a thread of another processor. Nothing is changed.
    BadState = 2, "the thread is idle, or of another processor";
    /// The thread is in a list already, on enqueue or preparing. Nothing is changed.
    Already = 3, "the thread is in a list already";
    /// The thread's number is not below the count of records. Nothing is changed.
    NoThread = 4, "no record has the thread's number";
    /// Period, allowance, floor and ranks that a window cannot have. Nothing is changed.
    BadConfig = 5, "period, allowance, floor or ranks are not those of a window";
    /// A budget that cannot be made. No call of this package answers it: in a record it is
    /// [`BadRecord`](Refusal::BadRecord).
    BadBudget = 6, "the budget cannot be made";
    /// Accounting with its end before its start. Nothing is changed.
    BackInTime = 7, "the end is before the start";
    /// No turn is left at that end of the counters. Nothing is changed.
    TurnsSpent = 8, "no turn is left at that end";
    /// The queue cannot go on. The call that meets it first keeps its stores so far and marks the queue; from then on
    /// every call on that queue is refused so and changes nothing. [`new`](crate::new) makes it empty again.
    Halted = 9, "the queue is halted";
    /// More than [`MOST_RECORDS`](crate::MOST_RECORDS) records, bytes that are not as many as an image has, or a lift
    /// record without room for a run more. Nothing is changed.
    BadTable = 10, "too many records, not the length of an image, or no room for a run";
    /// Policy, budget and runtime of a record disagree, or its budget is bad: budget and burst are 1 to the period, the
    /// period is 1 to 1,000,000,000. Nothing is changed, but a selection keeps its stores so far.
    BadRecord = 11, "policy, budget and runtime of a record disagree, or its budget is bad";
    /// Of a lift record: a run ends before it starts, or starts before the end of the run before; of words, also a
    /// count that is no whole number of runs. Nothing is changed.
    RecordOrder = 12, "the runs of a lift record are out of order";
}

impl fmt::Display for Refusal {
    fn fmt(&self, to: &mut fmt::Formatter<'_>) -> fmt::Result {
        write!(to, "{} ({}): {}", self.name(), self.number(), self.words())
    }
}

impl core::error::Error for Refusal {}

/// What a call gives, by the number that it answered.
#[inline]
pub(crate) fn answered<T>(number: u64, value: T) -> Result<T, Refusal> {
    match Refusal::from_number(number) {
        None => Ok(value),
        Some(refusal) => Err(refusal),
    }
}
