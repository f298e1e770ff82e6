//! The port's selection on the oracle's plain values.

use board::words::SelectionWords;
use kernel::oracle::*;
use tables::queues::QueueWords;
use tables::rows::{Path, Row};
use tables::table::Answer;
use tables::windows::{WindowWords, demand_of, key_of, whole};

/// What the answer's words hold before a call.
const UNTOUCHED: SelectionWords = [0x5555_5555; 19];

fn policy(tag: u64, priority: u64) -> Policy {
    match tag {
        0 => Policy::Fifo(u8::try_from(priority).expect("a priority")),
        1 => Policy::Fair,
        2 => Policy::Budget,
        3 => Policy::Idle,
        other => panic!("a policy of {other}"),
    }
}

fn selection_of(words: &SelectionWords) -> Selection {
    // A key's words stand in both from the third on.
    let key = words[..9].try_into().expect("nine words");
    let ready = Ready {
        number: words[1],
        policy: policy(words[9], words[10]),
        key: key_of(&key),
    };
    let demand = words[11..16].try_into().expect("five words");
    Selection {
        ready: (words[0] != 0).then_some(ready),
        demand: demand_of(&demand),
        fair_min_pass: (words[16] != 0).then_some(whole(words[17], words[18])),
    }
}

/// `CpuRunQueue::peek_next` on lent words; a refusal must leave the answer's as they were.
pub fn peek_next(
    (q, t, path): (&mut QueueWords, &mut [Row], &mut Path),
    cpu: u8,
    now: u64,
    window: &mut WindowWords,
    current: Option<&Row>,
) -> Answer<Selection> {
    let mut answer = UNTOUCHED;
    let row = current.unwrap_or(&[u64::MAX; 32]);
    let running = current.is_some().into();
    let number = board::words::select(q, t, path, cpu, now, window, running, row, &mut answer);
    match number {
        0 => Ok(selection_of(&answer)),
        number => {
            assert_eq!(answer, UNTOUCHED, "an answer beside a refusal");
            Err(number)
        }
    }
}
