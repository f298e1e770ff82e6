//! One call on a lift record on both sides: the port through C, and the judge.

use core::fmt;

use board::words::{self, PLACE_WORDS, PlaceWords, RunWords, SLID_WORDS, SlidWords};
use tables::named;
use tables::tally::Tally;

use crate::judge::{self, Answer};

/// What stands in an answer before the call.
const BEFORE: u64 = 0x5a5a;

/// The words that are shown of a long list, at each of its ends.
const SHOWN: usize = 24;

/// A list as it is shown where the sides differ.
struct Shown<'a>(&'a [u64]);

impl fmt::Debug for Shown<'_> {
    fn fmt(&self, to: &mut fmt::Formatter<'_>) -> fmt::Result {
        let words = self.0;
        match (words.first_chunk::<SHOWN>(), words.last_chunk::<SHOWN>()) {
            (Some(first), Some(last)) => {
                let count = words.len();
                write!(to, "{count} words {first:?} .. {last:?}")
            }
            _ => words.fmt(to),
        }
    }
}

fn by_port(list: &[u64], now: u64, width: u64) -> Answer<PlaceWords> {
    let mut place = [BEFORE; PLACE_WORDS];
    (words::lift(list, now, width, &mut place), place)
}

pub fn lift(tally: &mut Tally, list: &[u64], now: u64, width: u64) -> PlaceWords {
    let (port, wanted) = (by_port(list, now, width), judge::lift(list, now, width));
    let name = match wanted {
        (0, [_, 0]) => "search, an empty part",
        (number, _) => named!("search", number),
    };
    tally.compare(name, (Shown(list), now, width), port, wanted);
    wanted.1
}

/// The same search, with the first `ordered` runs taken for in order. Where they are, it is the search's answer.
pub fn lift_from(tally: &mut Tally, list: &[u64], ordered: u64, now: u64, width: u64) {
    let mut place = [BEFORE; PLACE_WORDS];
    let number = words::lift_from(list, ordered, now, width, &mut place);
    let wanted = judge::lift_from(list, ordered, now, width);
    let input = (Shown(list), ordered, now, width);
    let name = named!("search_from, by halving", wanted.0);
    tally.compare(name, &input, (number, place), wanted);
    if judge::in_order_since(list, 0) {
        let wanted = judge::lift(list, now, width);
        tally.compare("search_from, as a search", &input, (number, place), wanted);
    } else if wanted.0 == 0 {
        tally.note("of search_from by halving: the runs before out of order");
    }
}

pub fn slide(
    tally: &mut Tally,
    list: &[u64],
    width: u64,
    earlier: u64,
    from: PlaceWords,
    now: u64,
) -> SlidWords {
    let mut slid = [BEFORE; SLID_WORDS];
    let number = words::slide(list, width, earlier, from, now, &mut slid);
    let wanted = judge::slide(list, width, earlier, from, now);
    let name = match wanted {
        (0, [.., 1]) if now < earlier => "slide, afresh since the reading is lower",
        (0, [.., 1]) => "slide, afresh since the place is another",
        (number, _) => named!("slide", number),
    };
    let input = (Shown(list), width, earlier, from, now);
    tally.compare(name, input, (number, slid), wanted);
    wanted.1
}

/// Whether the run was recorded; the list goes on from the judge's.
pub fn append(tally: &mut Tally, list: &mut Vec<u64>, known: u64, run: &RunWords) -> bool {
    let (number, after) = judge::append(list, known, run);
    let mut left = list.clone();
    let port = words::append(&mut left, known, run);
    let input = (Shown(list), known, *run);
    tally.compare(
        named!("append", number),
        input,
        (port, &left),
        (number, &after),
    );
    *list = after;
    number == 0
}
