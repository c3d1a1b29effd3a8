//! Sample logs: the worked example, the limits from both sides, one log for each refusal, and random
//! slots on cards of many sizes. The gate's programs replay them all.

use crate::card::NONE;
use crate::log::{trailer, write, Slots, MOST_BYTES, TRAILER};
use crate::random::Random;

/// A log with its name.
pub struct Sample {
    pub name: &'static str,
    pub log: Vec<u8>,
}

/// The log of these slots, which the writer takes.
pub fn log_of(slots: &Slots) -> Vec<u8> {
    let mut buffer = vec![0; MOST_BYTES];
    let (refusal, length) = write(slots, &mut buffer);
    assert_eq!(refusal, 0, "the writer takes these slots");
    buffer.truncate(length as usize);
    buffer
}

/// The worked example of document 01.
pub fn example() -> Slots {
    Slots {
        m: 2,
        n: 2,
        d: 2,
        holds: vec![0, 0, 1, 1, 0],
        outputs: vec![0, 0, 0, 1, 1, 0, NONE, 0, NONE, NONE],
        cells: vec![10, 20, 11, 21, 12, 22, 0, 23, 0, 0],
    }
}

/// All samples, each under its name.
pub fn all() -> Vec<Sample> {
    let groups = [runs(), refused_heads(), refused_records()];
    groups.into_iter().flatten().collect()
}

/// The logs that are run and short enough to read.
pub fn small_runs() -> Vec<Sample> {
    let short = |sample: &Sample| sample.log.len() <= 1_000;
    runs().into_iter().filter(short).collect()
}

fn sample(name: &'static str, log: Vec<u8>) -> Sample {
    Sample { name, log }
}

/// Logs that are run.
fn runs() -> Vec<Sample> {
    let smallest = trailer(0, [1, 1, 1], 0);
    let banner = [b"site 7, aisle 3\n".to_vec(), log_of(&example())].concat();
    let full = [vec![7; MOST_BYTES - TRAILER], smallest.clone()].concat();
    vec![
        sample("example", log_of(&example())),
        sample("empty", smallest),
        sample("banner", banner),
        sample("longest_banner", full),
        sample("room_just_enough", trailer(0, [32, 32, 2], 0)),
        sample("drops", log_of(&drops())),
        sample("wraps", log_of(&wraps())),
        sample("held", log_of(&held())),
        sample("one_input", log_of(&random([1, 5, 3], 3_200, 70, 30, 1))),
        sample("all_ports", log_of(&random([32, 32, 2], 163, 60, 10, 2))),
        sample("wide", log_of(&random([3, 32, 21], 400, 90, 50, 3))),
        sample("tall", log_of(&random([32, 2, 32], 150, 20, 20, 4))),
        sample("deep", log_of(&random([4, 8, 64], 500, 95, 40, 5))),
    ]
}

/// One queue of one place, whose output is held every other slot: it drops.
fn drops() -> Slots {
    Slots {
        m: 1,
        n: 1,
        d: 1,
        holds: (0..20).map(|slot| slot % 2).collect(),
        outputs: vec![0; 20],
        cells: (100..120).collect(),
    }
}

/// One queue of three places, kept two cells full: its head goes round many times.
fn wraps() -> Slots {
    Slots {
        m: 1,
        n: 1,
        d: 3,
        holds: (0..40).map(|slot| u32::from(slot < 2)).collect(),
        outputs: vec![0; 40],
        cells: (0..40).map(|slot| 4_294_967_295 - slot).collect(),
    }
}

/// Every output held, then released.
fn held() -> Slots {
    Slots {
        m: 2,
        n: 3,
        d: 4,
        holds: vec![7, 7, 7, 7, 7, 0, 0, 0, 0, 0],
        outputs: [0, 1, 2, 1, 0, 1, 1, 1, 2, 2]
            .into_iter()
            .chain([NONE; 10])
            .collect(),
        cells: (1..11).chain([0; 10]).collect(),
    }
}

/// Random slots: so many of a hundred inputs have an arrival, and so many of a hundred outputs are
/// held.
pub fn random(card: [u32; 3], slots: u32, load: u32, hold: u32, seed: u64) -> Slots {
    let [m, n, d] = card;
    let mut random = Random::seeded(seed);
    let mut made = Slots {
        m,
        n,
        d,
        holds: Vec::new(),
        outputs: Vec::new(),
        cells: Vec::new(),
    };
    for _ in 0..slots {
        made.holds.push(random.mask(n, hold));
        for _ in 0..m {
            let arrives = random.percent(load);
            made.outputs.push(if arrives {
                random.below(n) as u16
            } else {
                NONE
            });
            made.cells
                .push(if arrives { random.next() as u32 } else { 0 });
        }
    }
    made
}

/// Refusals 8, 1, 9 and the room.
fn refused_heads() -> Vec<Sample> {
    let smallest = trailer(0, [1, 1, 1], 0);
    let long = [vec![7; MOST_BYTES - 15], smallest.clone()].concat();
    let mut mark = smallest.clone();
    mark[15] = 0x51;
    vec![
        sample("no_bytes", Vec::new()),
        sample("fifteen_bytes", smallest[1..].to_vec()),
        sample("one_byte_too_many", long),
        sample("wrong_mark", mark),
        sample("no_inputs", trailer(0, [0, 1, 1], 0)),
        sample("outputs_33", trailer(0, [1, 33, 1], 0)),
        sample("depth_65", trailer(0, [1, 1, 65], 0)),
        sample("inputs_257", trailer(0, [257, 1, 1], 0)),
        sample("back_length_one", trailer(1, [1, 1, 1], 0)),
        sample("back_length_too_far", trailer(10, [1, 1, 1], 1)),
        // 429,496,730 × 10 is 4 modulo 2 ^ 32: the product is over whole numbers.
        sample(
            "product_that_wraps",
            [vec![0; 4], trailer(4, [1, 1, 1], 429_496_730)].concat(),
        ),
        sample("room_too_small", trailer(0, [32, 32, 3], 0)),
        sample("places_2050", trailer(0, [2, 25, 41], 0)),
    ]
}

/// Refusals 3 and 4, also of a card too large for the room: the records are checked first.
fn refused_records() -> Vec<Sample> {
    let small = log_of(&bad_later(2));
    let large = log_of(&bad_later(64));
    let at_hold = 16 + 2;
    vec![
        sample("hold_n", changed(&small, at_hold, 16)),
        sample("hold_n_large", changed(&large, at_hold, 16)),
        sample("output_n", changed(&small, 4, 20)),
        sample("output_n_large", changed(&large, 4, 20)),
        sample("three_before_four", changed(&changed(&small, 4, 20), 2, 16)),
        sample(
            "earlier_record_first",
            changed(&changed(&small, at_hold, 16), 4, 20),
        ),
        sample(
            "none_with_a_cell",
            changed(&changed(&small, 4, 0xFF), 5, 0xFF),
        ),
        sample("last_record", changed(&small, 2 * 16 + 4, 20)),
    ]
}

/// Three slots of a card with 20 outputs, a cell at every input.
fn bad_later(d: u32) -> Slots {
    Slots {
        m: 2,
        n: 20,
        d,
        holds: vec![0; 3],
        outputs: vec![0; 6],
        cells: vec![1; 6],
    }
}

fn changed(log: &[u8], place: usize, byte: u8) -> Vec<u8> {
    let mut log = log.to_vec();
    log[place] = byte;
    log
}
