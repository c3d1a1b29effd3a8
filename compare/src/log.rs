//! The slot log: the whole check, reading one slot, and the writer.

use crate::card::{arrival_fits, depth_fits, ports_fit, stays_below, Arrivals};

/// The most bytes of a log, banner included.
pub const MOST_BYTES: usize = 32_016;
/// The bytes of the trailer.
pub const TRAILER: usize = 16;
const MARK: [u8; 2] = [0x4C, 0x50];

/// What the trailer says, and the place of the first record.
#[derive(Clone, Copy, Debug, Default, PartialEq)]
pub struct Head {
    pub m: u32,
    pub n: u32,
    pub d: u32,
    pub count: u32,
    pub first: u32,
}

/// The answer of the whole check; `record` is counted from 1, and 0 where the refusal lies in no
/// record.
#[derive(Clone, Debug, PartialEq)]
pub struct Checked {
    pub refusal: u32,
    pub record: u32,
    pub head: Head,
}

/// The answer of reading one slot.
#[derive(Clone, Debug, PartialEq)]
pub struct SlotRead {
    pub refusal: u32,
    pub hold: u32,
    pub arrivals: Arrivals,
}

/// What the writer takes: a hold per slot, and an output and a cell per slot and input.
#[derive(Clone, Debug, PartialEq)]
pub struct Slots {
    pub m: u32,
    pub n: u32,
    pub d: u32,
    pub holds: Vec<u32>,
    pub outputs: Vec<u16>,
    pub cells: Vec<u32>,
}

impl Head {
    /// The bytes of the record of this slot.
    fn record<'a>(&self, log: &'a [u8], slot: u32) -> &'a [u8] {
        let bytes = record_bytes(self.m) as usize;
        let start = self.first as usize + slot as usize * bytes;
        &log[start..start + bytes]
    }
}

/// The bytes of one record.
pub fn record_bytes(m: u32) -> u64 {
    4 + 6 * u64::from(m)
}

/// The whole-log check.
pub fn check(log: &[u8]) -> Checked {
    match head_of(log) {
        Ok(head) => check_records(log, head),
        Err(refusal) => Checked {
            refusal,
            record: 0,
            head: Head::default(),
        },
    }
}

fn check_records(log: &[u8], head: Head) -> Checked {
    for slot in 0..head.count {
        let refusal = record_refusal(head.record(log, slot), head.n);
        if refusal != 0 {
            return Checked {
                refusal,
                record: slot + 1,
                head: Head::default(),
            };
        }
    }
    Checked {
        refusal: 0,
        record: 0,
        head,
    }
}

/// Reads the hold and the arrivals of one slot, counted from 0.
pub fn read(log: &[u8], slot: u32) -> SlotRead {
    match read_refusal(log, slot) {
        Ok(head) => SlotRead {
            refusal: 0,
            hold: number_at(head.record(log, slot), 0),
            arrivals: arrivals_in(head.record(log, slot)),
        },
        Err(refusal) => SlotRead {
            refusal,
            hold: 0,
            arrivals: Arrivals::nothing(),
        },
    }
}

fn read_refusal(log: &[u8], slot: u32) -> Result<Head, u32> {
    let head = head_of(log)?;
    if slot >= head.count {
        return Err(11);
    }
    match record_refusal(head.record(log, slot), head.n) {
        0 => Ok(head),
        refusal => Err(refusal),
    }
}

/// What stands before the records' refusals: the head of the log, or refusal 8, 1 or 9.
fn head_of(log: &[u8]) -> Result<Head, u32> {
    if log.len() < TRAILER || log.len() > MOST_BYTES || !log.ends_with(&MARK) {
        return Err(8);
    }
    let before = (log.len() - TRAILER) as u32;
    let (back, mut head) = trailer_of(&log[before as usize..]);
    if !ports_fit(head.m, head.n) || !depth_fits(head.d) {
        return Err(1);
    }
    if !back_fits(back, &head, before) {
        return Err(9);
    }
    head.first = before - back;
    Ok(head)
}

/// The back length and the numbers of the trailer; the place of the first record is still open.
fn trailer_of(trailer: &[u8]) -> (u32, Head) {
    let head = Head {
        m: u32::from(short_at(trailer, 4)),
        n: u32::from(short_at(trailer, 6)),
        d: u32::from(short_at(trailer, 8)),
        count: number_at(trailer, 10),
        first: 0,
    };
    (number_at(trailer, 0), head)
}

/// The back length is count × (4 + 6M) over whole numbers, and the bytes before the trailer hold
/// it.
fn back_fits(back: u32, head: &Head, before: u32) -> bool {
    u64::from(back) == u64::from(head.count) * record_bytes(head.m) && back <= before
}

/// Refusal 3 or 4 of one record, 0 for none.
fn record_refusal(record: &[u8], n: u32) -> u32 {
    let fits = |(output, cell)| arrival_fits(output, cell, n);
    if !stays_below(number_at(record, 0), n) {
        3
    } else if !entries(record).all(fits) {
        4
    } else {
        0
    }
}

/// Output and cell of each input in a record.
fn entries(record: &[u8]) -> impl Iterator<Item = (u16, u32)> + '_ {
    let each = record[4..].chunks_exact(6);
    each.map(|entry| (short_at(entry, 0), number_at(entry, 2)))
}

fn arrivals_in(record: &[u8]) -> Arrivals {
    let mut arrivals = Arrivals::nothing();
    for (input, (output, cell)) in entries(record).enumerate() {
        arrivals.outputs[input] = output;
        arrivals.cells[input] = cell;
    }
    arrivals
}

fn short_at(bytes: &[u8], place: usize) -> u16 {
    u16::from_le_bytes([bytes[place], bytes[place + 1]])
}

fn number_at(bytes: &[u8], place: usize) -> u32 {
    u32::from(short_at(bytes, place)) | u32::from(short_at(bytes, place + 2)) << 16
}

/// Writes a log without a banner into the first bytes of the buffer; answers the refusal (0 for
/// none) and the length.
pub fn write(slots: &Slots, buffer: &mut [u8]) -> (u32, u32) {
    let refusal = write_refusal(slots, buffer.len());
    if refusal != 0 {
        return (refusal, 0);
    }
    let bytes = bytes_of(slots);
    buffer[..bytes.len()].copy_from_slice(&bytes);
    (0, bytes.len() as u32)
}

fn write_refusal(slots: &Slots, room: usize) -> u32 {
    if !ports_fit(slots.m, slots.n) || !depth_fits(slots.d) {
        1
    } else if !lists_fit(slots) {
        2
    } else if log_bytes(slots) > MOST_BYTES as u64 {
        8
    } else {
        match slots_refusal(slots) {
            0 if (room as u64) < log_bytes(slots) => 10,
            refusal => refusal,
        }
    }
}

fn lists_fit(slots: &Slots) -> bool {
    let wanted = slots.holds.len() as u128 * u128::from(slots.m);
    slots.outputs.len() as u128 == wanted && slots.cells.len() as u128 == wanted
}

/// The bytes of the log that the writer would write.
fn log_bytes(slots: &Slots) -> u64 {
    slots.holds.len() as u64 * record_bytes(slots.m) + TRAILER as u64
}

/// The first of refusals 3 and 4 by record, 0 for none.
fn slots_refusal(slots: &Slots) -> u32 {
    let mut each = (0..slots.holds.len()).map(|slot| slot_refusal(slots, slot));
    each.find(|refusal| *refusal != 0).unwrap_or(0)
}

fn slot_refusal(slots: &Slots, slot: usize) -> u32 {
    if !stays_below(slots.holds[slot], slots.n) {
        3
    } else if !entries_of(slots, slot).all(|(output, cell)| arrival_fits(output, cell, slots.n)) {
        4
    } else {
        0
    }
}

fn entries_of(slots: &Slots, slot: usize) -> impl Iterator<Item = (u16, u32)> + '_ {
    let m = slots.m as usize;
    let inputs = slot * m..(slot + 1) * m;
    inputs.map(|at| (slots.outputs[at], slots.cells[at]))
}

fn bytes_of(slots: &Slots) -> Vec<u8> {
    let mut bytes = Vec::new();
    for (slot, hold) in slots.holds.iter().enumerate() {
        bytes.extend(hold.to_le_bytes());
        for (output, cell) in entries_of(slots, slot) {
            bytes.extend(output.to_le_bytes());
            bytes.extend(cell.to_le_bytes());
        }
    }
    let back = bytes.len() as u32;
    bytes.extend(trailer(
        back,
        [slots.m, slots.n, slots.d],
        slots.holds.len() as u32,
    ));
    bytes
}

/// The 16 bytes at the end of a log; of M, N and D the low two bytes each.
pub fn trailer(back: u32, card: [u32; 3], count: u32) -> Vec<u8> {
    let mut bytes = back.to_le_bytes().to_vec();
    for number in card {
        bytes.extend(&number.to_le_bytes()[..2]);
    }
    bytes.extend(count.to_le_bytes());
    bytes.extend(MARK);
    bytes
}
