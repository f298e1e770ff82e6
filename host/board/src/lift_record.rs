//! The lift record: runs, the part of them that lies in the stretch before a reading, and the calls on both.

use crate::refusal::{Refusal, answered};
use crate::words::{
    self, PLACE_COUNT, PLACE_FIRST, PLACE_WORDS, PlaceWords, RUN_END, RUN_START, RUN_THREAD,
    RunWords, SLID_AFRESH, SLID_WORDS, SlidWords,
};

/// One run of a lift record: from which reading to which a thread ran. It may have the length 0.
#[derive(Clone, Copy, Debug, PartialEq, Eq)]
#[repr(transparent)]
pub struct Run(RunWords);

impl Run {
    /// A run that started and ended at no time: what a list has where nothing is recorded yet.
    pub const NONE: Self = Self::new(0, 0, 0);

    /// A run from its start to its end. Whether the end is at least the start is asked by the calls.
    pub const fn new(start_ns: u64, end_ns: u64, thread: u64) -> Self {
        let mut words = [0; words::RUN_WORDS];
        words[RUN_START] = start_ns;
        words[RUN_END] = end_ns;
        words[RUN_THREAD] = thread;
        Self(words)
    }

    /// The reading at which it started.
    pub const fn start_ns(&self) -> u64 {
        self.0[RUN_START]
    }

    /// The reading at which it ended.
    pub const fn end_ns(&self) -> u64 {
        self.0[RUN_END]
    }

    /// The number of its thread, which no call looks at.
    pub const fn thread(&self) -> u64 {
        self.0[RUN_THREAD]
    }

    /// The run of any words ([`words`]).
    pub const fn from_words(words: RunWords) -> Self {
        Self(words)
    }

    /// Its words ([`words`]).
    pub const fn words(&self) -> &RunWords {
        &self.0
    }
}

/// Where a part of a lift record lies. By [`lift`], [`lift_from`] and [`Slid::place`]; [`slide`] takes any.
#[derive(Clone, Copy, Debug, PartialEq, Eq)]
#[repr(transparent)]
pub struct Place(PlaceWords);

impl Place {
    /// The place of two numbers.
    pub const fn new(first: u64, count: u64) -> Self {
        let mut words = [0; PLACE_WORDS];
        words[PLACE_FIRST] = first;
        words[PLACE_COUNT] = count;
        Self(words)
    }

    /// The number of its first run; of an empty part, of the run that it lies before, or how many runs there are.
    pub const fn first(&self) -> u64 {
        self.0[PLACE_FIRST]
    }

    /// How many runs it has.
    pub const fn count(&self) -> u64 {
        self.0[PLACE_COUNT]
    }

    /// Its words ([`words`]).
    pub const fn words(&self) -> &PlaceWords {
        &self.0
    }
}

/// What a slide answers beside the part. By [`slide`].
#[derive(Clone, Copy, Debug, PartialEq, Eq)]
#[repr(transparent)]
pub struct Slid(SlidWords);

impl Slid {
    /// Where the part lies.
    pub const fn place(&self) -> Place {
        Place::new(self.0[PLACE_FIRST], self.0[PLACE_COUNT])
    }

    /// Whether it searched, since it could not go on from the earlier place.
    pub const fn afresh(&self) -> bool {
        self.0[SLID_AFRESH] != 0
    }

    /// What a slide answers in any words ([`words`]).
    pub const fn from_words(words: SlidWords) -> Self {
        Self(words)
    }

    /// Its words ([`words`]).
    pub const fn words(&self) -> &SlidWords {
        &self.0
    }
}

/// How many words runs have; the runs are in memory, so that the count is no greater than a `usize`.
const fn word_count(list: &[Run]) -> usize {
    size_of_val(list) / size_of::<u64>()
}

/// Runs as the words that the entries take.
const fn words_of(list: &[Run]) -> &[u64] {
    // SAFETY: a run is its words (`repr(transparent)`), so address, alignment and count are those of the words.
    unsafe { core::slice::from_raw_parts(list.as_ptr().cast(), word_count(list)) }
}

/// The same, for a call that changes them: any words that it leaves are a run's.
const fn words_of_mut(list: &mut [Run]) -> &mut [u64] {
    let count = word_count(list);
    // SAFETY: as above; the runs stay borrowed while the words are.
    unsafe { core::slice::from_raw_parts_mut(list.as_mut_ptr().cast(), count) }
}

/// The runs of a place. The calls answer places within the list; asking for them so, nothing here can panic.
fn part(list: &[Run], place: Place) -> &[Run] {
    let rest = list.get(place.first() as usize..).unwrap_or_default();
    rest.get(..place.count() as usize).unwrap_or_default()
}

/// The runs whose end lies after `now_ns` less `width_ns` (after 0 where that is negative) and whose start lies before
/// `now_ns`: all of them and only these, with their place. A width of 0 finds the run that goes on at `now_ns`. An
/// empty part lies at the first run with such an end, also where that run starts at `now_ns` or later, else behind the
/// last run.
///
/// Judges every run, and changes nothing. Refuses as [`RecordOrder`](Refusal::RecordOrder) where any run of the list
/// ends before it starts, or starts before the end of the run before.
pub fn lift(list: &[Run], now_ns: u64, width_ns: u64) -> Result<(&[Run], Place), Refusal> {
    let mut place = [0; PLACE_WORDS];
    let number = words::lift(words_of(list), now_ns, width_ns, &mut place);
    answered(number, Place(place)).map(|place| (part(list, place), place))
}

/// What [`lift`] answers, in the steps of two halvings, for a list whose first `ordered` runs are known to be in order,
/// such as one that was made by [`append`]. `ordered` may be more than there are.
///
/// Judges only the runs from run number `ordered` on, with how they follow the run before them, and changes nothing.
/// Where the first `ordered` runs are not in order after all, the answer is some part of the list. Refuses as
/// [`RecordOrder`](Refusal::RecordOrder) where a run that it judges is out of order.
pub fn lift_from(
    list: &[Run],
    ordered: usize,
    now_ns: u64,
    width_ns: u64,
) -> Result<(&[Run], Place), Refusal> {
    let mut place = [0; PLACE_WORDS];
    let ordered = ordered as u64;
    let number = words::lift_from(words_of(list), ordered, now_ns, width_ns, &mut place);
    answered(number, Place(place)).map(|place| (part(list, place), place))
}

/// What [`lift`] answers at `now_ns`, from the place of an earlier reading with the same width; any place is taken. It
/// is afresh exactly where `now_ns` is before `earlier_ns`, or where the place is not what [`lift`] answers at
/// `earlier_ns` in this list; else the place is moved on run by run. A run that is recorded later, but began before
/// `earlier_ns`, changes that reading's place: over a list that grows a slide is often afresh.
///
/// Judges every run, changes nothing, and refuses as [`lift`].
pub fn slide(
    list: &[Run],
    width_ns: u64,
    earlier_ns: u64,
    place: Place,
    now_ns: u64,
) -> Result<(&[Run], Slid), Refusal> {
    let (words, mut slid) = (words_of(list), [0; SLID_WORDS]);
    let number = words::slide(words, width_ns, earlier_ns, place.0, now_ns, &mut slid);
    answered(number, Slid(slid)).map(|slid| (part(list, slid.place()), slid))
}

/// Records a run behind the first `runs` of a list, which are all that it has so far; the list is its whole room. To be
/// called whenever a run has ended.
///
/// Changes run number `runs`, and judges no other but for the end of the one before it. Refuses, in this order, as
/// [`BadTable`](Refusal::BadTable) where there is no room for it, or [`RecordOrder`](Refusal::RecordOrder) where it
/// ends before it starts, or starts before the end of the run before, with nothing changed.
pub fn append(list: &mut [Run], runs: usize, run: Run) -> Result<(), Refusal> {
    let number = words::append(words_of_mut(list), runs as u64, run.words());
    answered(number, ())
}
