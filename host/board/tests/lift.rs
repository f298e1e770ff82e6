//! The lift record on types: the worked numbers of document 02's T-01, what is refused and what that leaves.

use board::words::{self, PLACE_WORDS, SLID_WORDS};
use board::*;

const LIST: [Run; 6] = [
    Run::new(0, 4, 0),
    Run::new(4, 9, 1),
    Run::new(10, 10, 2),
    Run::new(12, 20, 0),
    Run::new(20, 20, 1),
    Run::new(25, 30, 2),
];
/// The second run starts before the first has ended.
const OUT_OF_ORDER: [Run; 2] = [Run::new(0, 4, 0), Run::new(3, 9, 1)];
const NO_NUMBER: u64 = u64::MAX;

/// Both searches answer this place, and the runs that it names.
fn holds(list: &[Run], now: u64, width: u64, first: usize, count: usize) {
    let place = Place::new(first as u64, count as u64);
    let expected = Ok((&list[first..first + count], place));
    assert_eq!(lift(list, now, width), expected, "at {now}, width {width}");
    for ordered in [0, 1, list.len(), usize::MAX] {
        assert_eq!(lift_from(list, ordered, now, width), expected);
    }
}

#[test]
fn a_reading_and_a_width_name_a_part() {
    holds(&LIST, 15, 6, 2, 2);
    holds(&LIST, 20, 20, 0, 4);
    holds(&LIST, 15, 0, 3, 1);
    holds(&LIST, 30, 8, 5, 1);
}

#[test]
fn an_empty_part_lies_at_the_first_run_that_ends_later() {
    holds(&LIST, 20, 0, 5, 0);
    holds(&LIST, 10, 0, 3, 0);
    holds(&LIST, 0, 5, 0, 0);
    holds(&LIST, 24, 3, 5, 0);
    holds(&LIST, 40, 5, 6, 0);
    holds(&[], 7, 7, 0, 0);
}

#[test]
fn runs_of_length_0_lie_at_one_reading() {
    holds(&[Run::new(0, 0, 0)], 0, 0, 1, 0);
    let list = [Run::new(7, 7, 0), Run::new(7, 7, 1), Run::new(7, 9, 0)];
    holds(&list, 7, 0, 2, 0);
    holds(&list, 8, 2, 0, 3);
}

#[test]
fn slides_go_on_from_an_earlier_place() {
    let from = |place, now| slide(&LIST, 6, 15, place, now);
    let place = Place::new(2, 2);
    for (now, first, count) in [(24, 3, 2), (15, 2, 2), (100, 6, 0)] {
        let slid = Slid::from_words([first as u64, count as u64, 0]);
        assert_eq!(
            from(place, now),
            Ok((&LIST[first..first + count], slid)),
            "to {now}"
        );
    }
    let back = Slid::from_words([1, 3, 1]);
    assert_eq!(from(place, 14), Ok((&LIST[1..4], back)));
}

#[test]
fn slides_from_another_place_are_afresh() {
    let slid = Slid::from_words([3, 2, 1]);
    for (first, count) in [(2, 1), (NO_NUMBER, 0), (NO_NUMBER, NO_NUMBER)] {
        let answer = slide(&LIST, 6, 15, Place::new(first, count), 24);
        assert_eq!(answer, Ok((&LIST[3..5], slid)));
    }
}

#[test]
fn a_run_recorded_later_changes_the_place_of_an_earlier_reading() {
    let mut list = [Run::NONE; 2];
    append(&mut list, 0, Run::new(0, 4, 0)).expect("recorded");
    let (_, place) = lift(&list[..1], 6, 10).expect("a part");
    assert_eq!(place, Place::new(0, 1));
    append(&mut list, 1, Run::new(4, 9, 1)).expect("recorded");
    let (part, slid) = slide(&list, 10, 6, place, 10).expect("a part");
    assert_eq!((slid.place(), slid.afresh()), (Place::new(0, 2), true));
    assert_eq!(part, &list);
}

#[test]
fn runs_are_recorded_one_behind_the_other() {
    let mut list = [Run::NONE; LIST.len()];
    for (number, run) in LIST.into_iter().enumerate() {
        append(&mut list, number, run).expect("recorded");
    }
    assert_eq!(list, LIST);
}

#[test]
fn a_run_that_is_refused_changes_nothing() {
    let mut list = LIST;
    let mut refused = |runs, run, refusal| {
        assert_eq!(append(&mut list, runs, run), Err(refusal));
        assert_eq!(list, LIST);
    };
    refused(6, Run::new(30, 31, 0), Refusal::BadTable);
    refused(usize::MAX, Run::new(31, 30, 0), Refusal::BadTable);
    refused(5, Run::new(19, 21, 0), Refusal::RecordOrder);
    refused(5, Run::new(22, 21, 0), Refusal::RecordOrder);
    refused(0, Run::new(1, 0, 0), Refusal::RecordOrder);
    assert_eq!(
        append(&mut [], 0, Run::new(1, 0, 0)),
        Err(Refusal::BadTable)
    );
}

#[test]
fn lists_out_of_order_are_refused() {
    let refused = Err(Refusal::RecordOrder);
    assert_eq!(lift(&OUT_OF_ORDER, 6, 10), refused);
    assert_eq!(lift_from(&OUT_OF_ORDER, 1, 6, 10), refused);
    assert_eq!(
        slide(&OUT_OF_ORDER, 10, 6, Place::new(0, 2), 10),
        Err(Refusal::RecordOrder)
    );
    let backwards = [Run::new(0, 4, 0), Run::new(5, 4, 0)];
    assert_eq!(lift(&backwards, 6, 10), refused);
    let place = Place::new(0, 2);
    assert_eq!(
        lift_from(&OUT_OF_ORDER, 2, 6, 10),
        Ok((&OUT_OF_ORDER[..], place))
    );
}

#[test]
fn words_that_are_no_runs_are_refused_and_leave_zeros() {
    for count in [1, 2, 4, 5] {
        let list = vec![0; count];
        let mut place = [7; PLACE_WORDS];
        assert_eq!(words::lift(&list, 1, 1, &mut place), 12);
        assert_eq!(place, [0, 0]);
        place = [7; PLACE_WORDS];
        assert_eq!(words::lift_from(&list, NO_NUMBER, 1, 1, &mut place), 12);
        assert_eq!(place, [0, 0]);
        let mut slid = [7; SLID_WORDS];
        assert_eq!(words::slide(&list, 1, 1, [0, 0], 0, &mut slid), 12);
        assert_eq!(slid, [0, 0, 0]);
    }
}
