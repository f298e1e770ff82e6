//! What document 02's T-01 says of a lift record, sentence by sentence over all runs; and the search by halving as
//! crates/lift_record/specs/Halving.antt defines it, for lists that are only said to be in order.

use board::words::{PlaceWords, RUN_END, RUN_START, RUN_WORDS, RunWords, SLID_WORDS, SlidWords};

/// The numbers of the two refusals.
pub const BAD_TABLE: u64 = 10;
pub const RECORD_ORDER: u64 = 12;

/// The number that a call answers, and what it stores.
pub type Answer<T> = (u64, T);

fn runs(list: &[u64]) -> impl ExactSizeIterator<Item = &[u64]> {
    list.chunks_exact(RUN_WORDS)
}

/// Of run k, which the list has.
fn start(list: &[u64], k: u64) -> u64 {
    list[RUN_WORDS * k as usize + RUN_START]
}

fn end(list: &[u64], k: u64) -> u64 {
    list[RUN_WORDS * k as usize + RUN_END]
}

fn count(list: &[u64]) -> u64 {
    (list.len() / RUN_WORDS) as u64
}

/// "Each end is at least its start, and each start at least the end before it": so of the runs from run `from` on.
fn follows(list: &[u64], from: u64) -> bool {
    (from..count(list))
        .all(|k| start(list, k) <= end(list, k) && (k == 0 || end(list, k - 1) <= start(list, k)))
}

/// So of the runs from run `from` on, in words that are whole runs.
pub fn in_order_since(list: &[u64], from: u64) -> bool {
    list.len() % RUN_WORDS == 0 && follows(list, from)
}

/// "Now less the width (0 if that is negative)".
fn since(now: u64, width: u64) -> u64 {
    now.saturating_sub(width)
}

/// "The runs whose end lies after now less the width and whose start lies before now ..., with its place: first run and
/// count". "An empty part lies at the first run with such an end, or at the list's end."
pub fn place(list: &[u64], now: u64, width: u64) -> PlaceWords {
    let since = since(now, width);
    let mut part = (0..).zip(runs(list)).filter_map(|(k, run)| {
        let named = run[RUN_END] > since && run[RUN_START] < now;
        named.then_some(k)
    });
    let Some(first) = part.next() else {
        let ended = |run: &&[u64]| run[RUN_END] <= since;
        return [runs(list).take_while(ended).count() as u64, 0];
    };
    let (last, more) = part.fold((first, 0), |(_, more), k| (k, more + 1));
    assert_eq!(last - first, more, "the runs of a list in order are a part");
    [first, 1 + more]
}

/// "Refused, with an empty part: 12 RecordOrder ..., before anything else."
pub fn lift(list: &[u64], now: u64, width: u64) -> Answer<PlaceWords> {
    if in_order_since(list, 0) {
        (0, place(list, now, width))
    } else {
        (RECORD_ORDER, [0, 0])
    }
}

/// "Gives what a fresh search gives; exactly where the new reading is lower, or the place isn't the earlier reading's
/// in this list, it searches afresh and says so."
pub fn slide(
    list: &[u64],
    width: u64,
    earlier: u64,
    from: PlaceWords,
    now: u64,
) -> Answer<SlidWords> {
    if !in_order_since(list, 0) {
        return (RECORD_ORDER, [0; SLID_WORDS]);
    }
    let afresh = now < earlier || from != place(list, earlier, width);
    let [first, count] = place(list, now, width);
    (0, [first, count, afresh.into()])
}

/// The first of the numbers from `low` up to `high` that fails a test, where all that pass stand before all that fail:
/// `halving`.
fn halved(test: &impl Fn(u64) -> bool, low: u64, high: u64) -> u64 {
    if low >= high {
        return low;
    }
    let middle = low + (high - low) / 2;
    if test(middle) {
        halved(test, middle + 1, high)
    } else {
        halved(test, low, middle)
    }
}

/// `halved_place`
fn halved_place(list: &[u64], now: u64, width: u64) -> PlaceWords {
    let since = since(now, width);
    let first = halved(&|k| end(list, k) <= since, 0, count(list));
    let behind = halved(&|k| start(list, k) < now, first, count(list));
    [first, behind - first]
}

/// `search_from_left`: the rest is judged, and the place found by halving, whatever the runs before are.
pub fn lift_from(list: &[u64], ordered: u64, now: u64, width: u64) -> Answer<PlaceWords> {
    if in_order_since(list, ordered) {
        (0, halved_place(list, now, width))
    } else {
        (RECORD_ORDER, [0, 0])
    }
}

/// A run behind the first `known`: 10 where the list has no room, then 12 where the run ends before it starts or starts
/// before the end of the run before; else its words stand in their place. The number, and the list.
pub fn append(list: &[u64], known: u64, run: &RunWords) -> Answer<Vec<u64>> {
    let left = list.to_vec();
    if known >= count(list) {
        return (BAD_TABLE, left);
    }
    let before = known.checked_sub(1).map_or(0, |k| end(list, k));
    if run[RUN_END] < run[RUN_START] || run[RUN_START] < before {
        return (RECORD_ORDER, left);
    }
    let place = RUN_WORDS * known as usize;
    let (front, rest) = left.split_at(place);
    (0, [front, run, &rest[RUN_WORDS..]].concat())
}
