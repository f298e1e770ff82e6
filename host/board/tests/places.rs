//! The places of words are those of the definitions: each constant of `board::words` is held to the line `name =
//! number` of the crate that defines it, or to the constant of the code where no definition names the number.

use std::collections::HashMap;
use std::fs;
use std::path::PathBuf;

use board::words::*;

/// The lines `name = number` of a crate's definitions, or `pub const name: usize = number;` of its code.
fn defined(file: &str) -> HashMap<String, usize> {
    let crates = PathBuf::from(env!("CARGO_MANIFEST_DIR")).join("../../crates");
    let text = fs::read_to_string(crates.join(file)).expect("the definitions");
    let numbers = text.lines().filter_map(|line| {
        let (name, number) = line.trim_end_matches(';').split_once(" = ")?;
        let name = name.trim_start_matches("pub const ");
        let name = name.trim_end_matches(": usize").to_string();
        Some((name, number.parse().ok()?))
    });
    numbers.collect()
}

fn held(file: &str, places: &[(&str, usize)]) {
    let defined = defined(file);
    for (name, place) in places {
        assert_eq!(defined.get(*name), Some(place), "{name} of {file}");
    }
}

#[test]
fn parameters_and_runtimes() {
    held(
        "policy_words/specs/PolicyWords.antt",
        &[
            ("row_words", ROW_WORDS),
            ("policy_tag", POLICY_TAG),
            ("fifo_priority", FIFO_PRIORITY),
            ("band_word", BAND),
            ("role_tag", ROLE_TAG),
            ("weight_word", WEIGHT),
            ("quantum_word", QUANTUM),
            ("backend_tag", BACKEND_TAG),
            ("budget_tag", BUDGET_TAG),
            ("budget_word", BUDGET_NS),
            ("budget_period", BUDGET_PERIOD),
            ("budget_burst", BUDGET_BURST),
            ("runtime_tag", RUNTIME_TAG),
            ("runtime_first", RUNTIME_FIRST),
            ("runtime_second", RUNTIME_SECOND),
            ("runtime_third", RUNTIME_THIRD),
            ("runtime_fourth", RUNTIME_FOURTH),
        ],
    );
}

#[test]
fn records() {
    held(
        "codec/specs/Codec.antt",
        &[
            ("ready_turn_word", READY_TURN),
            ("height_word", HEIGHT),
            ("membership_tag", MEMBERSHIP_TAG),
            ("membership_first", MEMBERSHIP_FIRST),
            ("membership_second", MEMBERSHIP_SECOND),
            ("cpu_word", CPU),
        ],
    );
}

#[test]
fn windows_demands_and_keys() {
    held(
        "window_words/specs/WindowWords.antt",
        &[
            ("window_word_count", WINDOW_WORDS),
            ("window_period", WINDOW_PERIOD),
            ("window_allowance", WINDOW_ALLOWANCE),
            ("window_floor", WINDOW_FLOOR),
            ("priority_rank_word", PRIORITY_RANK),
            ("budget_rank_word", BUDGET_RANK),
            ("fair_rank_word", FAIR_RANK),
            ("borrow_rank_word", BORROW_RANK),
            ("prefer_fair_word", PREFER_FAIR),
            ("epoch_tag", EPOCH_TAG),
            ("epoch_word", EPOCH),
            ("allowance_left", ALLOWANCE_LEFT),
            ("floor_left", FLOOR_LEFT),
            ("demand_protected", DEMAND_PROTECTED),
            ("demand_fair", DEMAND_FAIR),
            ("demand_sensitive", DEMAND_SENSITIVE),
            ("demand_eligible", DEMAND_ELIGIBLE),
            ("demand_any", DEMAND_ANY),
            ("candidate_pass_high", CANDIDATE_PASS_HIGH),
            ("candidate_pass_low", CANDIDATE_PASS_LOW),
            ("candidate_available", CANDIDATE_AVAILABLE),
            ("candidate_turn", CANDIDATE_TURN),
            ("key_tag", KEY_TAG),
            ("key_mode", KEY_MODE),
            ("key_urgency", KEY_URGENCY),
            ("key_rank", KEY_RANK),
            ("key_algorithm_rank", KEY_ALGORITHM_RANK),
            ("key_high", KEY_HIGH),
            ("key_low", KEY_LOW),
            ("key_band", KEY_BAND),
            ("key_turn", KEY_TURN),
        ],
    );
}

#[test]
fn selections_counters_and_choices() {
    held(
        "board_words/specs/BoardWords.antt",
        &[
            ("selected_tag", SELECTED_TAG),
            ("selected_id", SELECTED_ID),
            ("selected_policy", SELECTED_POLICY),
            ("selected_priority", SELECTED_PRIORITY),
            ("selection_protected", SELECTION_PROTECTED),
            ("min_pass_tag", MIN_PASS_TAG),
            ("min_pass_high", MIN_PASS_HIGH),
            ("min_pass_low", MIN_PASS_LOW),
            ("back_turn", BACK_TURN),
            ("front_turn", FRONT_TURN),
            ("should_switch_word", SHOULD_SWITCH),
            ("front_word", TO_FRONT),
        ],
    );
}

#[test]
fn queues() {
    held(
        "lent_queue/specs/LentQueue.antt",
        &[("queue_rows", QUEUE_ROWS)],
    );
}

/// What the code stores begins with the number that the entries answer; the place stands behind it.
#[test]
fn runs_places_and_slides() {
    held(
        "lift_record/src/lib.rt",
        &[
            ("START", RUN_START),
            ("END", RUN_END),
            ("THREAD", RUN_THREAD),
            ("RUN_WORDS", RUN_WORDS),
            ("FOUND_FIRST", PLACE_FIRST + 1),
            ("FOUND_COUNT", PLACE_COUNT + 1),
            ("FOUND_WORDS", PLACE_WORDS + 1),
            ("SLID_AFRESH", SLID_AFRESH + 1),
            ("SLID_WORDS", SLID_WORDS + 1),
        ],
    );
}
