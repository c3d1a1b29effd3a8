//! The log of a soak, written, checked and read by the library and by this program.

use super::pair::{same_number, LEFTOVER};
use crate::card::{Arrivals, PORTS};
use crate::differ::{halves, said};
use crate::library;
use crate::log::{check, read, write, Slots, MOST_BYTES};
use crate::random::Random;

/// What stands in a buffer before the writer's call, and in a banner.
const FILLED: u8 = 0xEE;

/// The log that the library writes of these slots: the same bytes as this program's, the rest of the
/// buffer as it was. A buffer that is a byte short is refused, and stays.
pub fn written(random: &mut Random, slots: &Slots) -> Result<Vec<u8>, String> {
    let mut own = vec![FILLED; MOST_BYTES];
    let (refusal, length) = write(slots, &mut own);
    own.resize(length as usize + random.choose(&[0, 1, 40]), FILLED);
    let mut came = vec![FILLED; own.len()];
    let answer = by_library(slots, &mut came);
    same_number("writer", said(halves(refusal, length)), said(answer))?;
    same_bytes("log", &own, &came)?;
    let mut short = vec![FILLED; length as usize - 1];
    same_number("writer without room", 10, by_library(slots, &mut short))?;
    let stays = short.iter().all(|byte| *byte == FILLED);
    same("buffer of a refused writer", stays)?;
    own.truncate(length as usize);
    Ok(own)
}

fn by_library(slots: &Slots, buffer: &mut [u8]) -> u64 {
    let Slots { m, n, d, .. } = *slots;
    library::log_write(m, n, d, &slots.holds, &slots.outputs, &slots.cells, buffer)
}

/// The log, now and then behind a banner, which may be as long as the log leaves room for.
pub fn behind_banner(random: &mut Random, log: Vec<u8>) -> Vec<u8> {
    let room = MOST_BYTES - log.len();
    let some = random.below(room as u32 + 1) as usize;
    let banner = random.choose(&[0, 0, 0, some, room]);
    [vec![FILLED; banner], log].concat()
}

/// Both whole checks say the same of a log.
pub fn same_check(log: &[u8]) -> Result<(), String> {
    let own = check(log);
    let mut answer = [LEFTOVER; 5];
    let came = library::log_check(log, &mut answer);
    let wanted = halves(own.refusal, own.record);
    same_number("whole check", said(wanted), said(came))?;
    let head = own.head;
    let wanted = [head.m, head.n, head.d, head.count, head.first];
    same("answer of the whole check", wanted == answer)
}

/// The hold and the arrivals of a slot, the same by both readers, and as they were written.
pub fn read_slot(log: &[u8], slots: &Slots, slot: u32) -> Result<(u32, Arrivals), String> {
    let own = read(log, slot);
    let (refusal, hold, arrivals) = by_reader(log, slot);
    same_number("reading a slot", own.refusal, refusal)?;
    same_number("hold that was read", own.hold, hold)?;
    same("arrivals that were read", own.arrivals == arrivals)?;
    let (m, slot) = (slots.m as usize, slot as usize);
    let outputs = slots.outputs[slot * m..].starts_with(&arrivals.outputs[..m]);
    let cells = slots.cells[slot * m..].starts_with(&arrivals.cells[..m]);
    let written = hold == slots.holds[slot] && outputs && cells;
    same("what was written and what was read", written)?;
    Ok((hold, arrivals))
}

/// A slot past the count is refused, and the lists stay.
pub fn refused_read(log: &[u8], count: u32) -> Result<(), String> {
    let (refusal, hold, arrivals) = by_reader(log, count);
    same_number("reading past the count", 11, refusal)?;
    let stay = hold == LEFTOVER && arrivals == leftover_arrivals();
    same("lists of a refused reading", stay)
}

fn by_reader(log: &[u8], slot: u32) -> (u32, u32, Arrivals) {
    let (mut hold, mut arrivals) = ([LEFTOVER], leftover_arrivals());
    let Arrivals { outputs, cells } = &mut arrivals;
    let refusal = library::log_read(log, slot, &mut hold, outputs, cells);
    (refusal, hold[0], arrivals)
}

fn leftover_arrivals() -> Arrivals {
    Arrivals {
        outputs: [LEFTOVER as u16; PORTS],
        cells: [LEFTOVER; PORTS],
    }
}

fn same_bytes(what: &str, own: &[u8], came: &[u8]) -> Result<(), String> {
    let differs = own.iter().zip(came).position(|(own, came)| own != came);
    match differs {
        None => Ok(()),
        Some(place) => same_number(&format!("{what}, byte {place}"), own[place], came[place]),
    }
}

fn same(what: &str, truth: bool) -> Result<(), String> {
    truth.then_some(()).ok_or(format!("{what}: not the same"))
}
