//! Lists: seeded runs on sound lists, and damaged ones.

use kernel::oracle::*;

use crate::lists::{Call, Listed};
use tables::generator::Random;
use tables::make::{self, Kind};
use tables::table::Table;
use tables::tally::Tally;
use tables::values::Picks;

/// A membership that a list can have.
fn of_list(random: &mut Random) -> Membership {
    loop {
        match make::membership(random) {
            Membership::None => {}
            membership => return membership,
        }
    }
}

/// The processor that a thread must be assigned to, to stand in a list.
fn home(membership: Membership) -> u8 {
    match membership {
        Membership::ReadyFifo { cpu, .. } | Membership::ReadyFair { cpu } => cpu,
        _ => 0,
    }
}

/// A sound list of the first `length` of `count` records.
fn sound(random: &mut Random, count: u64, length: u64, membership: Membership) -> Listed {
    let mut records: Vec<Record> = (0..count)
        .map(|_| make::record(random, Kind::Fifo))
        .collect();
    for (record, place) in records.iter_mut().zip(0..) {
        record.cpu = home(membership);
        if place < length {
            record.membership = membership;
            record.list = ListLinks {
                previous: place.checked_sub(1),
                next: Some(place + 1).filter(|next| *next < length),
            };
        }
    }
    let list = List {
        head: Some(0).filter(|_| length > 0),
        tail: length.checked_sub(1),
        len: length,
    };
    let table = Table::of(records);
    Listed { table, list }
}

/// Pushes at both ends and removals anywhere; at times of a thread that may not.
pub fn seeded(tally: &mut Tally, random: &mut Random, count: u64, calls: u64) {
    let membership = of_list(random);
    let length = random.of([0, 0, count / 2, count]);
    let mut listed = sound(random, count, length, membership);
    for number in 0..calls {
        let place = random.below(count);
        let queued = listed.table.records[place as usize].membership != Membership::None;
        let sensible = if queued {
            Call::Remove
        } else {
            random.of([Call::Push, Call::PushFront])
        };
        let call = match random.below(16) {
            0 => random.of(Call::ALL),
            1..=4 if number % (4 * count + 16) < 2 * count => Call::Push,
            _ => sensible,
        };
        let membership = match random.below(32) {
            0 => make::membership(random),
            _ => membership,
        };
        let _ = listed.call(tally, call, place, membership);
    }
}

/// Tables at the most records and beyond, numbers inside and outside them, and ends so too.
pub fn limits(tally: &mut Tally, random: &mut Random) {
    let membership = of_list(random);
    for count in [4096, 4097, 5000] {
        for end in [None, Some(0), Some(4096), Some(u64::MAX)] {
            let mut listed = sound(random, count, 2, membership);
            listed.list.head = listed.list.head.and(end);
            for place in [0, 4095, 4096, 4097, 5000, u64::MAX] {
                for call in Call::ALL {
                    let _ = listed.call(tally, call, place, membership);
                }
            }
        }
    }
}

/// The end of a list as it is, or another.
fn end(random: &mut Random, count: u64, sound: Option<u64>) -> Option<u64> {
    match random.below(3) {
        0 => make::link(random, count),
        _ => sound,
    }
}

/// A list with links, memberships, processors, ends or its length overwritten: each call from there, for each thread.
pub fn damaged(tally: &mut Tally, random: &mut Random) {
    let count = 1 + random.below(6);
    let membership = make::membership(random);
    let length = random.below(count + 1);
    let mut listed = sound(random, count, length, membership);
    for _ in 0..random.of([0, 1, 1, 2, 4 * count]) {
        let place = random.below(count) as usize;
        let record = &mut listed.table.records[place];
        match random.below(6) {
            0 => record.list.previous = make::link(random, count),
            1 => record.list.next = make::link(random, count),
            2 => record.list.previous = Some(place as u64),
            3 => record.list.next = Some(place as u64),
            4 => record.membership = make::membership(random),
            _ => record.cpu = random.of([0, 1, 255]),
        }
    }
    listed.list = List {
        head: end(random, count, listed.list.head),
        tail: end(random, count, listed.list.tail),
        len: random.of([length, length, length, 0, 1, u64::MAX - 1, u64::MAX]),
    };
    listed.table = Table::of(listed.table.records);
    for place in (0..count).chain([count, u64::MAX]) {
        for call in Call::ALL {
            let other = make::membership(random);
            let _ = listed.clone().call(tally, call, place, membership);
            let _ = listed.clone().call(tally, call, place, other);
        }
    }
    for _ in 0..8 {
        let place = random.below(count);
        let call = random.of(Call::ALL);
        let _ = listed.call(tally, call, place, membership);
    }
}
