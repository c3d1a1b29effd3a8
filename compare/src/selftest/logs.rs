//! Checks of the slot log: round trips, refusals in their order, reading one slot, and the writer.

use super::{Group, REFUSED_SIZES};
use crate::card::{Arrivals, NONE};
use crate::log::{check, read, trailer, write, Checked, Head, SlotRead, Slots, MOST_BYTES};
use crate::random::Random;

/// So many slots in which nothing happens.
fn idle(m: u32, n: u32, d: u32, count: usize) -> Slots {
    let entries = count * m as usize;
    Slots {
        m,
        n,
        d,
        holds: vec![0; count],
        outputs: vec![NONE; entries],
        cells: vec![0; entries],
    }
}

/// The log of slots that the writer takes.
fn log_of(slots: &Slots) -> Vec<u8> {
    let mut buffer = vec![0xEE; MOST_BYTES];
    let (refusal, length) = write(slots, &mut buffer);
    assert_eq!(refusal, 0, "the writer takes these slots");
    buffer.truncate(length as usize);
    buffer
}

/// All slots of a log that passes the whole check, as the writer takes them.
fn read_all(log: &[u8]) -> Slots {
    let head = check(log).head;
    let mut slots = Slots {
        m: head.m,
        n: head.n,
        d: head.d,
        holds: Vec::new(),
        outputs: Vec::new(),
        cells: Vec::new(),
    };
    for slot in 0..head.count {
        let read = read(log, slot);
        slots.holds.push(read.hold);
        slots
            .outputs
            .extend(&read.arrivals.outputs[..head.m as usize]);
        slots.cells.extend(&read.arrivals.cells[..head.m as usize]);
    }
    slots
}

fn refused(refusal: u32, record: u32) -> Checked {
    Checked {
        refusal,
        record,
        head: Head::default(),
    }
}

fn nothing_read(refusal: u32) -> SlotRead {
    SlotRead {
        refusal,
        hold: 0,
        arrivals: Arrivals::nothing(),
    }
}

fn random_slots(random: &mut Random) -> Slots {
    let (m, n, d) = (
        random.between(1, 32),
        random.between(1, 32),
        random.between(1, 64),
    );
    let count = random
        .below(1 + 32_000 / (4 + 6 * m))
        .min(random.between(0, 400));
    let mut slots = idle(m, n, d, count as usize);
    for hold in &mut slots.holds {
        *hold = random.mask(n, 30);
    }
    for place in 0..slots.outputs.len() {
        if random.percent(60) {
            slots.outputs[place] = random.below(n) as u16;
            slots.cells[place] = random.next() as u32;
        }
    }
    slots
}

/// Written, checked, read slot by slot and written again; then the same behind a banner.
pub fn round_trips(group: &mut Group) {
    let mut random = Random::seeded(8);
    for _ in 0..300 {
        let slots = random_slots(&mut random);
        let log = log_of(&slots);
        group.equal(
            "length",
            log.len(),
            slots.holds.len() * (4 + 6 * slots.m as usize) + 16,
        );
        whole_check(group, &log, &slots, 0);
        group.holds("the same slots", read_all(&log) == slots);
        group.holds("the same bytes", log_of(&read_all(&log)) == log);
        let banner = random.below((MOST_BYTES - log.len()) as u32 + 1) as usize;
        let with_banner = [vec![0x4C; banner], log].concat();
        whole_check(group, &with_banner, &slots, banner);
        group.holds(
            "the same slots behind a banner",
            read_all(&with_banner) == slots,
        );
    }
    fixed_bytes(group);
}

fn whole_check(group: &mut Group, log: &[u8], slots: &Slots, banner: usize) {
    let head = Head {
        m: slots.m,
        n: slots.n,
        d: slots.d,
        count: slots.holds.len() as u32,
        first: banner as u32,
    };
    let wanted = Checked {
        refusal: 0,
        record: 0,
        head,
    };
    group.equal("whole check", check(log), wanted);
}

/// One small log, byte by byte.
fn fixed_bytes(group: &mut Group) {
    let slots = Slots {
        m: 2,
        n: 3,
        d: 64,
        holds: vec![5],
        outputs: vec![2, NONE],
        cells: vec![0x0403_0201, 0],
    };
    let record = [5, 0, 0, 0, 2, 0, 1, 2, 3, 4, 255, 255, 0, 0, 0, 0];
    let ending = [16, 0, 0, 0, 2, 0, 3, 0, 64, 0, 1, 0, 0, 0, 0x4C, 0x50];
    group.equal("bytes of a log", log_of(&slots), [record, ending].concat());
}

/// The whole check refuses, with the same refusal for reading slot 0 where it lies in no record.
fn refused_both(group: &mut Group, what: &str, log: &[u8], refusal: u32) {
    group.equal(what, check(log), refused(refusal, 0));
    group.equal(what, read(log, 0), nothing_read(refusal));
}

pub fn refusals(group: &mut Group) {
    sizes_and_marks(group);
    cards(group);
    back_lengths(group);
    records(group);
}

fn sizes_and_marks(group: &mut Group) {
    let smallest = trailer(0, [1, 1, 1], 0);
    group.equal("16 bytes", check(&smallest).refusal, 0);
    refused_both(group, "15 bytes", &smallest[1..], 8);
    refused_both(group, "no bytes", &[], 8);
    let at_limit = [vec![0; MOST_BYTES - 16], smallest.clone()].concat();
    group.equal("32,016 bytes", check(&at_limit).refusal, 0);
    group.equal(
        "place behind a full banner",
        check(&at_limit).head.first,
        32_000,
    );
    refused_both(group, "32,017 bytes", &[vec![0], at_limit].concat(), 8);
    for (place, byte) in [(14, 0x4D), (15, 0x4C), (14, 0x50)] {
        let mut marked = trailer(9, [0, 1, 1], 0);
        marked[place] = byte;
        refused_both(group, "mark, before card and back length", &marked, 8);
    }
}

fn cards(group: &mut Group) {
    let outside = [
        [0, 1, 1],
        [33, 1, 1],
        [1, 0, 1],
        [1, 33, 1],
        [1, 1, 0],
        [1, 1, 65],
    ];
    let cut_to_a_byte = [[257, 1, 1], [1, 257, 1], [1, 1, 257]];
    for card in outside.into_iter().chain(cut_to_a_byte) {
        refused_both(group, "card", &trailer(0, card, 0), 1);
        refused_both(group, "card before back length", &trailer(1, card, 0), 1);
    }
    for card in [[32, 32, 64], [1, 1, 1], [32, 1, 64]] {
        group.equal("card at its limits", check(&trailer(0, card, 0)).refusal, 0);
    }
}

fn back_lengths(group: &mut Group) {
    let log = log_of(&idle(1, 1, 1, 2));
    for back in [0, 10, 19, 21, 30] {
        let changed = [&log[..20], &trailer(back, [1, 1, 1], 2)].concat();
        refused_both(group, "back length", &changed, 9);
    }
    refused_both(group, "a byte short before the trailer", &log[1..], 9);
    for (m, count) in [
        (1, 1 << 31),
        (2, 1 << 28),
        (2, 1 << 31),
        (2, (1 << 28) + 1),
        (10, 1 << 26),
    ] {
        let back = count * (4 + 6 * u64::from(m));
        let long = [
            vec![0xFF; 64],
            trailer(back as u32, [m, 1, 1], count as u32),
        ]
        .concat();
        refused_both(group, "a product over 32 bits", &long, 9);
    }
}

fn records(group: &mut Group) {
    let good = idle(2, 3, 4, 4);
    let log = log_of(&good);
    let changed = |changes: &[(usize, u8)]| {
        let mut log = log.clone();
        changes.iter().for_each(|(place, byte)| log[*place] = *byte);
        log
    };
    let (hold, output) = (|slot: usize| slot * 16, |slot: usize| slot * 16 + 4);
    let far = |slot: usize| [(output(slot), 3), (output(slot) + 1, 0)];
    group.equal("hold N − 1", check(&changed(&[(hold(1), 4)])).refusal, 0);
    group.equal("hold N", check(&changed(&[(hold(1), 8)])), refused(3, 2));
    group.equal(
        "hold bit 31",
        check(&changed(&[(hold(3) + 3, 128)])),
        refused(3, 4),
    );
    group.equal(
        "output N − 1",
        check(&changed(&[(output(0), 2), (output(0) + 1, 0)])).refusal,
        0,
    );
    group.equal("output N", check(&changed(&far(0))), refused(4, 1));
    group.equal(
        "none with a cell",
        check(&changed(&[(output(3) + 11, 1)])),
        refused(4, 4),
    );
    let [low, high] = far(2);
    group.equal(
        "3 before 4 in one record",
        check(&changed(&[low, high, (hold(2), 8)])),
        refused(3, 3),
    );
    group.equal(
        "4 of an earlier record",
        check(&changed(&[low, high, (hold(3), 8)])),
        refused(4, 3),
    );
    group.equal(
        "3 of an earlier record",
        check(&changed(&[low, high, (hold(1), 8)])),
        refused(3, 2),
    );
}

pub fn reading(group: &mut Group) {
    let mut slots = idle(2, 3, 4, 3);
    (slots.holds[1], slots.outputs[3], slots.cells[3]) = (6, 2, 77);
    let mut log = log_of(&slots);
    let mut wanted = nothing_read(0);
    (
        wanted.hold,
        wanted.arrivals.outputs[1],
        wanted.arrivals.cells[1],
    ) = (6, 2, 77);
    group.equal("slot 1", read(&log, 1), wanted.clone());
    group.equal("the last slot", read(&log, 2), nothing_read(0));
    for past in [3, 4, 1 << 28, u32::MAX] {
        group.equal("past the count", read(&log, past), nothing_read(11));
    }
    log[32] = 8;
    group.equal("another bad record does not matter", read(&log, 1), wanted);
    group.equal("that record", read(&log, 2), nothing_read(3));
    group.equal("11 before the records", read(&log, 3), nothing_read(11));
    (log[32], log[36], log[37]) = (0, 3, 0);
    group.equal("output N", read(&log, 2), nothing_read(4));
    log[32] = 8;
    group.equal("3 before 4", read(&log, 2), nothing_read(3));
    let empty = trailer(0, [1, 1, 1], 0);
    group.equal("a log without slots", read(&empty, 0), nothing_read(11));
    group.equal(
        "9 before 11",
        read(&trailer(1, [1, 1, 1], 0), 5),
        nothing_read(9),
    );
}

/// The writer must refuse, and leave the buffer.
fn refused_write(group: &mut Group, what: &str, slots: &Slots, room: usize, refusal: u32) {
    let mut buffer = vec![0xEE; room];
    group.equal(what, write(slots, &mut buffer), (refusal, 0));
    group.holds("the buffer stays", buffer == vec![0xEE; room]);
}

pub fn writer(group: &mut Group) {
    writer_limits(group);
    writer_records(group);
    for (m, most) in [(1, 3_200), (2, 2_000), (5, 941), (32, 163)] {
        let log = log_of(&idle(m, 1, 1, most));
        group.holds("at most 32,016 bytes", log.len() <= MOST_BYTES);
        refused_write(group, "a slot more", &idle(m, 1, 1, most + 1), 40_000, 8);
    }
    let slots = idle(2, 3, 4, 3);
    let mut buffer = vec![0xEE; 70];
    group.equal("room to spare", write(&slots, &mut buffer), (0, 64));
    group.equal("the rest of the buffer stays", &buffer[64..], &[0xEE; 6]);
    group.equal("room just enough", write(&slots, &mut [0; 64]), (0, 64));
    refused_write(group, "a byte short", &slots, 63, 10);
    refused_write(group, "no room", &slots, 0, 10);
}

fn writer_limits(group: &mut Group) {
    for (m, n, d) in REFUSED_SIZES {
        let mut slots = idle(1, 1, 1, 1);
        (slots.m, slots.n, slots.d) = (m, n, d);
        refused_write(group, "card", &slots, 100, 1);
        slots.cells.push(1);
        refused_write(group, "card before lists", &slots, 0, 1);
    }
    for (outputs, cells) in [(5, 6), (7, 6), (6, 5), (6, 7), (0, 0)] {
        let mut slots = idle(2, 3, 4, 3);
        slots.outputs.resize(outputs, 9);
        slots.cells.resize(cells, 0);
        slots.holds[0] = 8;
        refused_write(group, "lists, before records and room", &slots, 0, 2);
    }
    let mut slots = idle(1, 1, 1, 3_201);
    slots.holds[0] = 2;
    refused_write(group, "length before records and room", &slots, 0, 8);
    slots.cells.pop();
    refused_write(group, "lists before length", &slots, 0, 2);
}

fn writer_records(group: &mut Group) {
    let mut slots = idle(2, 3, 4, 3);
    slots.holds[1] = 8;
    refused_write(group, "hold N, before room", &slots, 0, 3);
    slots.outputs[2] = 3;
    refused_write(group, "3 before 4 in one record", &slots, 100, 3);
    slots.outputs[1] = 3;
    refused_write(group, "4 of an earlier record", &slots, 100, 4);
    let mut slots = idle(2, 3, 4, 3);
    slots.cells[5] = 1;
    refused_write(group, "none with a cell, before room", &slots, 0, 4);
    slots.outputs[5] = 2;
    group.equal("output N − 1", write(&slots, &mut [0; 64]), (0, 64));
    slots.outputs[5] = 3;
    refused_write(group, "output N", &slots, 100, 4);
}
