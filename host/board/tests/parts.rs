//! Each part that has a name is read from its own word, and written to it.

use board::words::*;
use board::{
    Candidate, Choice, Config, Demand, Key, Lengths, Membership, Mode, Place, Policy, Ranks,
    Record, Role, Run, Selection, Slid, Turns, Window,
};

/// Words that all differ, each of them a byte.
fn different<const COUNT: usize>() -> [u64; COUNT] {
    core::array::from_fn(|place| 100 + place as u64)
}

fn wide(high: u64, low: u64) -> u128 {
    u128::from(high) << 64 | u128::from(low)
}

#[test]
fn of_a_configuration() {
    let ranks = Ranks {
        priority: 4,
        budget: 5,
        fair: 6,
        borrow: 7,
    };
    let config = Config::new(11, 12, 13).with_ranks(ranks);
    assert_eq!(config.words(), &[11, 12, 13, 4, 5, 6, 7, 0]);
    let preferring = config.with_prefer_fair(true);
    assert_eq!(preferring.words(), &[11, 12, 13, 4, 5, 6, 7, 1]);
    assert_eq!(
        Config::new(1, 1, 1).words()[PRIORITY_RANK..],
        [0, 1, 2, 3, 0]
    );
}

#[test]
fn of_a_window() {
    let words = different();
    let window = Window::from_words(words);
    assert_eq!(window.period_ns(), words[WINDOW_PERIOD]);
    assert_eq!(window.allowance_ns(), words[WINDOW_ALLOWANCE]);
    assert_eq!(window.floor_ns(), words[WINDOW_FLOOR]);
    assert_eq!(window.epoch(), Some(words[EPOCH]));
    assert_eq!(window.allowance_left_ns(), words[ALLOWANCE_LEFT]);
    assert_eq!(window.floor_left_ns(), words[FLOOR_LEFT]);
    assert_eq!(Window::from_words([0; WINDOW_WORDS]).epoch(), None);
}

#[test]
fn of_a_demand() {
    for place in 0..DEMAND_WORDS {
        let mut words = [0; DEMAND_WORDS];
        words[place] = 1;
        let demand = Demand::from_words(words);
        let mut flags = [false; DEMAND_WORDS];
        flags[DEMAND_PROTECTED] = demand.protected();
        flags[DEMAND_FAIR] = demand.fair();
        flags[DEMAND_SENSITIVE] = demand.window_sensitive();
        flags[DEMAND_ELIGIBLE] = demand.eligible_budget();
        flags[DEMAND_ANY] = demand.any_budget();
        assert_eq!(flags.map(u64::from), words);
    }
}

#[test]
fn of_a_key() {
    let mut words = different();
    words[KEY_MODE] = Mode::Protected.word();
    let key = Key::from_words(words).expect("a key");
    assert_eq!(key.mode(), Mode::Protected);
    assert_eq!(u64::from(key.urgency()), words[KEY_URGENCY]);
    assert_eq!(u64::from(key.rank()), words[KEY_RANK]);
    assert_eq!(u64::from(key.algorithm_rank()), words[KEY_ALGORITHM_RANK]);
    assert_eq!(key.algorithm(), wide(words[KEY_HIGH], words[KEY_LOW]));
    assert_eq!(u64::from(key.band()), words[KEY_BAND]);
    assert_eq!(key.turn(), words[KEY_TURN]);
    words[KEY_TAG] = 0;
    assert_eq!(Key::from_words(words), None);
}

#[test]
fn of_a_selection() {
    let mut words = different();
    words[SELECTED_POLICY] = Policy::Budget.word();
    let selection = Selection::from_words(words);
    let ready = selection.ready().expect("a thread");
    assert_eq!(selection.thread(), Some(words[SELECTED_ID]));
    assert_eq!(
        (ready.thread(), ready.policy()),
        (words[SELECTED_ID], Policy::Budget)
    );
    assert_eq!(u64::from(ready.priority()), words[SELECTED_PRIORITY]);
    assert_eq!(u64::from(ready.urgency()), words[KEY_URGENCY]);
    assert_eq!(u64::from(ready.rank()), words[KEY_RANK]);
    assert_eq!(u64::from(ready.algorithm_rank()), words[KEY_ALGORITHM_RANK]);
    assert_eq!(ready.algorithm(), wide(words[KEY_HIGH], words[KEY_LOW]));
    assert_eq!(u64::from(ready.band()), words[KEY_BAND]);
    assert_eq!(ready.turn(), words[KEY_TURN]);
    assert_eq!(
        selection.demand().words()[..],
        words[SELECTION_PROTECTED..MIN_PASS_TAG]
    );
    assert_eq!(
        selection.lowest_pass(),
        Some(wide(words[MIN_PASS_HIGH], words[MIN_PASS_LOW]))
    );
}

#[test]
fn of_a_selection_of_nobody() {
    let mut words = different();
    [words[SELECTED_TAG], words[MIN_PASS_TAG]] = [0, 0];
    let selection = Selection::from_words(words);
    assert_eq!((selection.ready(), selection.thread()), (None, None));
    assert_eq!(selection.lowest_pass(), None);
}

#[test]
fn of_a_candidate() {
    let mut words = different();
    [words[POLICY_TAG], words[ROLE_TAG]] = [Policy::Fair.word(), Role::Priority.word()];
    let candidate = Candidate::from_words(words);
    assert_eq!(
        (candidate.policy(), candidate.role()),
        (Policy::Fair, Role::Priority)
    );
    let pass = wide(words[CANDIDATE_PASS_HIGH], words[CANDIDATE_PASS_LOW]);
    assert_eq!(
        (candidate.pass(), candidate.turn()),
        (pass, words[CANDIDATE_TURN])
    );
    assert!(candidate.has_time());
    words[CANDIDATE_AVAILABLE] = 0;
    assert!(!Candidate::from_words(words).has_time());
}

#[test]
fn of_a_membership() {
    let list_of = |kind| {
        let mut words = different();
        words[MEMBERSHIP_TAG] = kind;
        Record::from_words(words).membership()
    };
    let words: Row = different();
    let (cpu, priority) = (
        words[MEMBERSHIP_FIRST] as u8,
        words[MEMBERSHIP_SECOND] as u8,
    );
    let queue = words[MEMBERSHIP_FIRST];
    let kinds = [
        Membership::None,
        Membership::ReadyFifo { cpu, priority },
        Membership::ReadyFair { cpu },
        Membership::Waiting { queue },
        Membership::Terminated,
        Membership::Terminated,
    ];
    assert_eq!([0, 1, 2, 3, 4, 5].map(list_of), kinds);
}

#[test]
fn of_other_answers() {
    assert!(Choice::from_words([1, 0]).switches() && !Choice::from_words([1, 0]).to_front());
    assert!(!Choice::from_words([0, 1]).switches() && Choice::from_words([0, 1]).to_front());
    let lengths = Lengths::from_words([1, 2, 3]);
    assert_eq!(
        (lengths.real_time(), lengths.fair(), lengths.budget()),
        (1, 2, 3)
    );
    let empty =
        [[0, 0, 0], [1, 0, 0], [0, 1, 0]].map(|words| Lengths::from_words(words).is_empty());
    assert_eq!(empty, [true, false, false]);
    assert_eq!(
        (Turns::START.back(), Turns::START.front()),
        (1 << 63, 1 << 63)
    );
    let turns = Turns::from_words([5, 6]);
    assert_eq!((turns.back(), turns.front()), (5, 6));
}

#[test]
fn of_a_lift_record() {
    let run = Run::new(5, 6, 7);
    assert_eq!(run.words(), &[5, 6, 7]);
    assert_eq!((run.start_ns(), run.end_ns(), run.thread()), (5, 6, 7));
    assert_eq!(Run::from_words([5, 6, 7]), run);
    let place = Place::new(8, 9);
    assert_eq!(place.words(), &[8, 9]);
    assert_eq!((place.first(), place.count()), (8, 9));
    let slid = Slid::from_words([8, 9, 1]);
    assert_eq!((slid.place(), slid.afresh()), (place, true));
    assert!(!Slid::from_words([8, 9, 0]).afresh());
}
