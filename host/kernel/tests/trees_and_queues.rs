//! Worked cases of trees, lists and run queues: the oracle answers as the paper says.
#![cfg(not(feature = "unchanged"))]

use kernel::oracle::*;

const PERIOD: u64 = 10_000_000;
const TWO: Budget = Budget {
    budget: 2_000_000,
    period: PERIOD,
    burst: 1_000_000,
};

fn window() -> Window {
    window_new(config_new(PERIOD, 2_000_000, 3_000_000, DEFAULT_ORDER).unwrap())
}

fn nodes(keys: &[u128]) -> Vec<Node> {
    keys.iter()
        .enumerate()
        .map(|(place, key)| Node {
            key: (*key, 0, 0, place as u64),
            links: Links::EMPTY,
        })
        .collect()
}

/// Node `n` has key `n`; inserts the given keys in their order.
fn grown(order: &[u64]) -> (Option<u64>, Vec<Node>) {
    let keys: Vec<u128> = (0..=order.iter().copied().max().unwrap())
        .map(u128::from)
        .collect();
    let mut table = nodes(&keys);
    let mut root = None;
    for number in order {
        tree_insert(&mut root, &mut table, *number).unwrap();
    }
    (root, table)
}

fn fifo(priority: u8, turn: u64) -> Record {
    let params = params_fifo(priority, 128, Role::Ordinary);
    Record::new(params, Runtime::Fifo, turn, 0)
}

fn fair(pass: u128, turn: u64) -> Record {
    let params = params_fair(16, 5_000_000, 128, Role::Ordinary, Backend::Stride).unwrap();
    Record::new(params, Runtime::Fair { pass, remaining: 1 }, turn, 0)
}

fn budget(epoch: Option<u64>, remaining: u64, turn: u64) -> Record {
    let runtime = BudgetRt {
        epoch,
        remaining,
        burst: 1_000_000,
    };
    Record::new(
        params_budget(TWO, 128, Role::Ordinary),
        Runtime::Budget(runtime),
        turn,
        0,
    )
}

#[test]
fn trees_balance_as_worked() {
    for order in [&[1, 2, 3][..], &[3, 1, 2]] {
        let (root, table) = grown(order);
        assert_eq!(root, Some(2));
        assert_eq!(table[2].links.height, 2);
    }
    let (mut root, mut table) = grown(&[1, 2, 3, 4, 5, 6, 7]);
    assert_eq!((root, table[4].links.height), (Some(4), 3));
    tree_remove(&mut root, &mut table, 4).unwrap();
    assert_eq!(root, Some(5));
    assert_eq!(
        table[5].links,
        Links {
            left: Some(2),
            right: Some(6),
            height: 3
        }
    );
    assert_eq!(table[4].links, Links::EMPTY);
    assert_eq!(tree_first(root, &mut table), Ok(Some(1)));
    assert_eq!(tree_contains(root, &mut table, 4), Ok(false));
    assert_eq!(tree_contains(root, &mut table, 6), Ok(true));
}

#[test]
fn an_equal_key_refuses_without_a_change() {
    let (mut root, mut table) = grown(&[1, 2, 3]);
    table[0].key = table[3].key;
    let before = table.clone();
    assert_eq!(
        tree_insert(&mut root, &mut table, 0),
        Err(Refusal::QueueCorrupted)
    );
    assert_eq!((root, table), (Some(2), before));
}

#[test]
fn paths_have_forty_entries() {
    let keys: Vec<u128> = (0..=40).collect();
    let mut table = nodes(&keys);
    for place in 0..39 {
        table[place].links.right = Some(place as u64 + 1);
    }
    assert_eq!(
        tree_contains(Some(0), &mut table, 40),
        Err(Refusal::QueueCorrupted)
    );
    table[38].links.right = None;
    assert_eq!(tree_contains(Some(0), &mut table, 40), Ok(false));
    table[38].links.right = Some(99);
    assert_eq!(
        tree_contains(Some(0), &mut table, 40),
        Err(Refusal::ThreadNotFound)
    );
}

#[test]
fn the_height_of_a_node_stays_in_a_byte() {
    let mut table = nodes(&[0, 1, 2, 3, 4, 5]);
    let links = |left, right, height| Links {
        left,
        right,
        height,
    };
    table[0].links.height = 255;
    table[1].links = links(Some(0), Some(3), 1);
    table[3].links = links(None, Some(4), 1);
    table[4].links = links(None, Some(5), 255);
    table[5].links.height = 254;
    let mut root = Some(1);
    assert_eq!(
        tree_insert(&mut root, &mut table, 2),
        Err(Refusal::QueueCorrupted)
    );
    assert_eq!(
        (root, table[4].links),
        (Some(1), links(Some(3), Some(5), 255))
    );
}

#[test]
fn fifo_and_fair_are_queued_and_named() {
    let mut records = vec![
        fair(5, 1),
        fifo(7, 2),
        fifo(3, 3),
        budget(None, 2_000_000, 4),
    ];
    let mut queue = Queue::EMPTY;
    for place in 0..4 {
        enqueue(&mut queue, &mut records, place, 0).unwrap();
    }
    assert_eq!(
        (queue.fifo_length, queue.fair.len, queue.budget_count),
        (2, 2, 1)
    );
    assert_eq!(queue.fifo[7].head, Some(1));
    assert_eq!(records[0].membership, Membership::ReadyFair { cpu: 0 });
    assert_eq!(
        enqueue(&mut queue, &mut records, 0, 0),
        Err(Refusal::ThreadAlreadyQueued)
    );
    let mut cpu_window = window();
    let named = peek_next(&mut queue, &mut records, 0, 0, &mut cpu_window, None).unwrap();
    assert_eq!(named.ready.map(|ready| ready.number), Some(2));
    assert_eq!(named.fair_min_pass, Some(5));
    assert_eq!(cpu_window.epoch, Some(0));
    for place in [2, 1] {
        remove(&mut queue, &mut records, place, 0).unwrap();
    }
    let named = peek_next(&mut queue, &mut records, 0, 0, &mut cpu_window, None).unwrap();
    assert_eq!(named.ready.map(|ready| ready.number), Some(3));
    for place in [0, 3] {
        remove(&mut queue, &mut records, place, 0).unwrap();
    }
    queue.epoch = None;
    assert_eq!(queue, Queue::EMPTY);
    assert_eq!(
        remove(&mut queue, &mut records, 0, 0),
        Err(Refusal::QueueCorrupted)
    );
    assert_eq!(
        remove(&mut queue, &mut records, 9, 0),
        Err(Refusal::ThreadNotFound)
    );
}

#[test]
fn front_place_and_turn_are_two_things() {
    let mut records = vec![fifo(3, 1), fifo(3, 9)];
    let mut queue = Queue::EMPTY;
    enqueue(&mut queue, &mut records, 0, 0).unwrap();
    enqueue_front(&mut queue, &mut records, 1, 0).unwrap();
    assert_eq!((queue.fifo[3].head, queue.fifo[3].tail), (Some(1), Some(0)));
    let named = peek_next(&mut queue, &mut records, 0, 0, &mut window(), None).unwrap();
    assert_eq!(named.ready.unwrap().number, 0);
}

#[test]
fn refusals_of_an_enqueue_change_nothing() {
    let mut records = vec![
        Record::new(params_idle(), Runtime::Idle, 1, 0),
        Record {
            cpu: 1,
            ..fifo(1, 1)
        },
        fifo(1, 2),
    ];
    let before = records.clone();
    let mut queue = Queue::EMPTY;
    let answer = enqueue(&mut queue, &mut records, 0, 0);
    assert_eq!(answer, Err(Refusal::InvalidThreadState));
    let answer = enqueue(&mut queue, &mut records, 1, 0);
    assert_eq!(answer, Err(Refusal::InvalidThreadState));
    assert_eq!(
        enqueue(&mut queue, &mut records, 3, 0),
        Err(Refusal::ThreadNotFound)
    );
    queue.fifo_length = u64::MAX;
    assert_eq!(
        enqueue(&mut queue, &mut records, 2, 0),
        Err(Refusal::QueueCorrupted)
    );
    assert_eq!(records, before);
}

#[test]
fn a_halt_keeps_the_stores_so_far() {
    let mut records = vec![fifo(1, 1), fifo(2, 2)];
    let mut queue = Queue::EMPTY;
    queue.roots[0] = Some(77);
    let answer = enqueue(&mut queue, &mut records, 0, 0);
    assert!(matches!(answer, Err(Refusal::Halted(Panic::Invariant(_)))));
    assert_eq!(
        records[0].membership,
        Membership::ReadyFifo {
            cpu: 0,
            priority: 1
        }
    );
    assert_eq!(
        (queue.fifo_length, queue.fifo[1].head, queue.roots[0]),
        (1, Some(0), Some(77))
    );

    let mut records = vec![budget(None, 5, 1)];
    let mut queue = Queue::EMPTY;
    queue.budget_count = u64::MAX;
    let answer = enqueue(&mut queue, &mut records, 0, 0);
    assert_eq!(answer, Err(Refusal::Halted(Panic::Fault)));
    assert_eq!(
        (queue.budget_count, queue.roots[6], queue.fair.len),
        (u64::MAX, Some(0), 1)
    );
}

#[test]
fn an_empty_queue_names_none_and_leaves_the_window() {
    let current = Candidate {
        params: params_fair(16, 5, 1, Role::Protected, Backend::RoundRobin).unwrap(),
        fair_pass: 42,
        turn: 1,
        budget_available: true,
    };
    let mut queue = Queue::EMPTY;
    let mut cpu_window = window();
    let named = peek_next(
        &mut queue,
        &mut [],
        0,
        25_000_000,
        &mut cpu_window,
        Some(current),
    )
    .unwrap();
    assert_eq!(named.ready, None);
    assert_eq!(named.fair_min_pass, Some(42));
    assert_eq!(named.demand, demand_with(Demand::default(), current));
    assert!(named.demand.protected && named.demand.fair && named.demand.window_sensitive);
    assert_eq!(cpu_window, window());
    assert_eq!(queue.epoch, Some(2));
}

#[test]
fn an_empty_thread_of_this_epoch_is_filed_as_ready() {
    let mut records = vec![budget(Some(1), 0, 1)];
    let mut queue = Queue::EMPTY;
    queue.epoch = Some(0);
    enqueue(&mut queue, &mut records, 0, 0).unwrap();
    assert_eq!((queue.roots[6], queue.roots[9]), (None, Some(0)));
    peek_next(&mut queue, &mut records, 0, 15_000_000, &mut window(), None).unwrap();
    assert_eq!((queue.roots[6], queue.roots[9]), (Some(0), None));
    let left = BudgetRt {
        epoch: Some(1),
        remaining: 0,
        burst: 1_000_000,
    };
    assert_eq!(records[0].runtime, Runtime::Budget(left));
    remove(&mut queue, &mut records, 0, 0).unwrap();
}

#[test]
fn another_processors_head_is_damaged() {
    let mut records = vec![fifo(1, 1)];
    let mut queue = Queue::EMPTY;
    enqueue(&mut queue, &mut records, 0, 0).unwrap();
    let answer = peek_next(&mut queue, &mut records, 1, 10_000_000, &mut window(), None);
    assert_eq!(answer, Err(Refusal::QueueCorrupted));
    assert_eq!(queue.epoch, Some(1));
}

#[test]
fn a_record_that_disagrees_is_judged_after_its_removal() {
    let mut records = vec![budget(Some(0), 0, 1)];
    let mut queue = Queue::EMPTY;
    enqueue(&mut queue, &mut records, 0, 0).unwrap();
    records[0].params.budget = Some(Budget { period: 0, ..TWO });
    assert!(!record_agrees(&records[0]));
    let (mut by_source, mut table) = (queue, records.clone());
    let answer = peek_next(&mut queue, &mut records, 0, 10_000_000, &mut window(), None);
    assert_eq!(answer, Err(Refusal::RecordDisagrees));
    assert_eq!(
        (queue.roots[6], queue.roots[9], queue.epoch),
        (None, None, None)
    );
    assert_eq!(
        remove(&mut queue, &mut records, 0, 0),
        Err(Refusal::QueueCorrupted)
    );
    let answer = peek_next_by(
        Rules::SOURCE,
        &mut by_source,
        &mut table,
        0,
        10_000_000,
        &mut window(),
        None,
    );
    assert_eq!(answer, Err(Refusal::Halted(Panic::Fault)));
}

#[test]
fn moves_are_limited_before_the_first_store_beyond() {
    // Both the exhausted ordinary and the exhausted priority tree name the one record.
    let mut records = vec![budget(Some(0), 0, 1)];
    let mut queue = Queue::EMPTY;
    enqueue(&mut queue, &mut records, 0, 0).unwrap();
    queue.roots[10] = Some(0);
    let mut damaged = queue;
    let mut table = records.clone();
    let answer = peek_next(&mut damaged, &mut table, 0, 10_000_000, &mut window(), None);
    assert_eq!(answer, Err(Refusal::MoveLimit));
    assert_eq!((damaged.roots[6], damaged.roots[7]), (Some(0), None));
    assert_eq!(
        (damaged.roots[9], damaged.roots[10], damaged.epoch),
        (None, Some(0), None)
    );
    let rules = Rules {
        judge_records: true,
        move_limit: 2,
    };
    peek_next_by(
        rules,
        &mut queue,
        &mut records,
        0,
        10_000_000,
        &mut window(),
        None,
    )
    .unwrap();
    assert_eq!(
        (queue.roots[6], queue.roots[7], queue.epoch),
        (Some(0), Some(0), Some(1))
    );
}

#[test]
fn a_list_by_itself_links_both_ways() {
    let mut records = vec![fifo(1, 1), fifo(1, 2), fifo(1, 3)];
    let member = Membership::ReadyFifo {
        cpu: 0,
        priority: 1,
    };
    let mut list = List::EMPTY;
    list_push(&mut list, &mut records, 0, member).unwrap();
    list_push(&mut list, &mut records, 1, member).unwrap();
    list_push_front(&mut list, &mut records, 2, member).unwrap();
    assert_eq!(
        list,
        List {
            head: Some(2),
            tail: Some(1),
            len: 3
        }
    );
    list_remove(&mut list, &mut records, 0, member).unwrap();
    assert_eq!(
        (records[2].list.next, records[1].list.previous),
        (Some(1), Some(2))
    );
    assert_eq!(
        (records[0].list, records[0].membership),
        (ListLinks::EMPTY, Membership::None)
    );
    records[2].list.next = Some(2);
    records[2].list.previous = Some(2);
    list_remove(&mut list, &mut records, 2, member).unwrap();
    assert_eq!((list.head, list.len), (Some(2), 1));
}

#[test]
fn records_in_a_tree_by_themselves() {
    let mut records: Vec<Record> = (0..8).map(|n| fair(8 - n, 1)).collect();
    let mut root = None;
    for place in 0..7 {
        index_insert(&mut root, &mut records, place).unwrap();
    }
    assert_eq!(
        (root, index_first(root, &mut records)),
        (Some(3), Ok(Some(6)))
    );
    assert_eq!(index_contains(root, &mut records, 7), Ok(false));
    assert_eq!(record_tree_key(&records[2], 2), (6, 128, 1, 2));
    index_remove(&mut root, &mut records, 6).unwrap();
    assert_eq!(index_first(root, &mut records), Ok(Some(5)));
}

/// A small sequence of numbers that look random.
struct Dice(u64);

impl Dice {
    fn below(&mut self, end: u64) -> u64 {
        self.0 ^= self.0 << 13;
        self.0 ^= self.0 >> 7;
        self.0 ^= self.0 << 17;
        self.0 % end
    }
}

/// Selection agrees with a scan over all queued threads, where the filing premise holds.
#[test]
fn selection_agrees_with_a_scan() {
    let mut dice = Dice(0x9E37_79B9_7F4A_7C15);
    let mut compared = 0;
    for _ in 0..60 {
        let roles = [Role::Ordinary, Role::Priority, Role::Protected];
        let mut records: Vec<Record> = (0..12)
            .map(|_| {
                let turn = 1 + dice.below(6);
                let mut record = match dice.below(3) {
                    0 => fifo(dice.below(3) as u8, turn),
                    1 => fair(u128::from(dice.below(4)) << 63, turn),
                    _ => budget(Some(dice.below(3)), dice.below(2) * 2_000_000, turn),
                };
                record.params.role = roles[dice.below(3) as usize];
                record.params.band = dice.below(2) as u8;
                record
            })
            .collect();
        let mut queue = Queue::EMPTY;
        let mut cpu_window = window();
        let mut now = 0;
        for _ in 0..120 {
            let place = dice.below(12);
            if records[place as usize].membership == Membership::None {
                enqueue(&mut queue, &mut records, place, 0).unwrap();
            } else if dice.below(2) == 0 {
                remove(&mut queue, &mut records, place, 0).unwrap();
            }
            now += dice.below(3_000_000);
            let epoch = Some(now / PERIOD);
            let fresh = queue.epoch != epoch;
            let refreshed: Vec<(u64, Record)> = records
                .iter()
                .enumerate()
                .filter(|(_, record)| record.membership != Membership::None)
                .map(|(place, record)| {
                    let runtime =
                        runtime_epoch_refresh(record.runtime, now, record.params).unwrap();
                    (place as u64, Record { runtime, ..*record })
                })
                .collect();
            let filed = refreshed.iter().all(|(place, record)| {
                let Runtime::Budget(left) = record.runtime else {
                    return true;
                };
                let exhausted = (9..12).any(|root| {
                    index_contains(queue.roots[root], &mut records.clone(), *place) == Ok(true)
                });
                (left.remaining != 0) == (!exhausted || fresh)
            });
            let demand = refreshed
                .iter()
                .fold(Demand::default(), |demand, (_, record)| {
                    demand_with(demand, record_candidate(record))
                });
            let scan = refreshed
                .iter()
                .filter_map(|(place, record)| {
                    let candidate = record_candidate(record);
                    let answer = window_candidate_key(cpu_window, now, candidate, demand)
                        .unwrap()
                        .1;
                    answer.map(|(key, _)| (key, *place))
                })
                .min_by(|left, right| key_compare(left.0, right.0).then(left.1.cmp(&right.1)));
            let named = peek_next(&mut queue, &mut records, 0, now, &mut cpu_window, None).unwrap();
            if filed {
                compared += 1;
                assert_eq!(named.ready.map(|ready| (ready.key, ready.number)), scan);
                assert_eq!(named.demand, demand);
            }
        }
    }
    assert!(compared > 1_000, "only {compared} selections compared");
}

/// Every call over damaged tables comes back, and the two tree forms answer alike.
#[test]
fn damaged_tables_come_back() {
    let mut dice = Dice(0xD1B5_4A32_D192_ED03);
    let mut kinds = [0_u32; 5];
    for round in 0..20_000 {
        let count = 1 + dice.below(6);
        let link = |dice: &mut Dice| (dice.below(3) != 0).then(|| dice.below(count + 1));
        let mut records: Vec<Record> = (0..count)
            .map(|_| {
                let turn = dice.below(4);
                let mut record = match dice.below(4) {
                    0 => fifo(dice.below(2) as u8, turn),
                    1 => fair(u128::from(dice.below(3)), turn),
                    _ => budget(
                        (dice.below(2) == 0).then(|| dice.below(3)),
                        dice.below(2),
                        turn,
                    ),
                };
                record.tree = Links {
                    left: link(&mut dice),
                    right: link(&mut dice),
                    height: [0, 1, 2, 3, 255][dice.below(5) as usize],
                };
                record.list = ListLinks {
                    previous: link(&mut dice),
                    next: link(&mut dice),
                };
                record.membership = match dice.below(4) {
                    0 => Membership::None,
                    1 => Membership::ReadyFifo {
                        cpu: 0,
                        priority: 0,
                    },
                    _ => Membership::ReadyFair { cpu: 0 },
                };
                record
            })
            .collect();
        let mut queue = Queue::EMPTY;
        queue.roots = queue.roots.map(|_| link(&mut dice));
        queue.fair = List {
            head: link(&mut dice),
            tail: link(&mut dice),
            len: dice.below(3),
        };
        queue.epoch = (dice.below(2) == 0).then_some(0);
        queue.budget_count = dice.below(2);
        let place = dice.below(count);

        let mut table: Vec<Node> = (0..count)
            .map(|number| Node {
                key: record_tree_key(&records[number as usize], number),
                links: records[number as usize].tree,
            })
            .collect();
        let mut copies = records.clone();
        let (mut plain, mut filed) = (queue.roots[0], queue.roots[0]);
        let (left, right) = if round % 2 == 0 {
            (
                tree_insert(&mut plain, &mut table, place),
                index_insert(&mut filed, &mut copies, place),
            )
        } else {
            (
                tree_remove(&mut plain, &mut table, place),
                index_remove(&mut filed, &mut copies, place),
            )
        };
        assert_eq!((left, plain), (right, filed));
        for (node, record) in table.iter().zip(&copies) {
            assert_eq!(node.links, record.tree);
        }

        let answer = match dice.below(4) {
            0 => enqueue(&mut queue, &mut records, place, 0),
            1 => remove(&mut queue, &mut records, place, 0),
            2 => enqueue_front(&mut queue, &mut records, place, 0),
            _ => {
                let now = dice.below(2) * PERIOD;
                peek_next(&mut queue, &mut records, 0, now, &mut window(), None).map(|_| ())
            }
        };
        kinds[match answer {
            Ok(()) => 0,
            Err(Refusal::Halted(_)) => 1,
            Err(Refusal::MoveLimit) => 2,
            Err(Refusal::ThreadNotFound) => 3,
            Err(_) => 4,
        }] += 1;
    }
    assert!(kinds.iter().all(|count| *count > 10), "kinds {kinds:?}");
}
