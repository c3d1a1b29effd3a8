//! The stack that one call takes, by painting. Below the stack pointer a pattern is laid over a large
//! area; the call is made; then the lowest byte that no longer has the pattern is looked for.
//!
//! Painting and looking touch memory below the stack pointer, which belongs to no object, and Rust
//! promises nothing about it. It is sound enough for a measurement: the whole stack of a thread is
//! mapped from the start, so no access is out of bounds for the system; the area lies well below the
//! frame of the function that paints or looks, so nothing in use is overwritten; no signal handler runs
//! on this thread's stack; all accesses are volatile and go through plain addresses, so the compiler
//! neither drops nor moves them; and all that comes of it is a number that is printed.
//!
//! What is counted: from the return address, which is in it, down to the lowest byte written. The frame
//! of the caller and arguments on the stack are not in it. The return address is found as the first
//! word below the caller's room that points into the caller's code. Bytes that the callee sets aside at
//! its lower end and never writes do not show.

use std::hint::black_box;
use std::mem::MaybeUninit;

/// The bytes painted.
const AREA: usize = 96 * 1024;
/// The bytes between the frame that paints or looks and the area.
const MARGIN: usize = 1_024;
/// The bytes that the caller sets aside, so that what it calls lies within the area.
const ROOM: usize = 2 * MARGIN;
/// No caller's code, and nothing of its frame below the room, is longer.
const LONGEST: usize = 4_096;
/// The stack of the measuring thread.
const STACK: usize = 1024 * 1024;
const WORD: usize = size_of::<usize>();
const PATTERN: usize = 0xB5A9_6E3D_C7F1_8B57_u64 as usize;
/// The bytes that the functions for calibration write on their stack.
const KNOWN: usize = 10_000;

/// Makes these measurements on a thread of their own.
pub fn on_fresh_stack<T: Send + 'static>(measure: fn() -> T) -> T {
    let thread = std::thread::Builder::new().stack_size(STACK);
    let running = thread.spawn(measure).expect("a thread can be started");
    running.join().expect("the measurements end well")
}

/// The greatest depth of several calls, and their number.
#[derive(Default)]
pub struct Mark {
    pub calls: usize,
    pub bytes: usize,
}

impl Mark {
    /// Makes the call and keeps the greater depth.
    pub fn call(&mut self, call: impl FnOnce()) {
        self.calls += 1;
        self.bytes = self.bytes.max(depth(call));
    }
}

/// The bytes of stack that this call takes.
#[inline(never)]
fn depth<F: FnOnce()>(call: F) -> usize {
    let here = 0_usize;
    let top = black_box(&here) as *const usize as usize - MARGIN;
    paint(top);
    let room = call_within(call);
    let start = above_return_address(room, call_within::<F> as *const () as usize);
    let lowest = lowest_changed(top);
    assert!(lowest > top - AREA, "a call goes below the painted area");
    start - lowest
}

/// Makes the call from a frame that ends within the painted area, and answers where its room began.
#[inline(never)]
fn call_within<F: FnOnce()>(call: F) -> usize {
    let room = MaybeUninit::<[usize; ROOM / WORD]>::uninit();
    call();
    black_box(&room) as *const _ as usize
}

#[inline(never)]
fn paint(top: usize) {
    for address in (top - AREA..top).step_by(WORD) {
        // Sound enough: see the head of this file.
        unsafe { std::ptr::write_volatile(address as *mut usize, PATTERN) }
    }
}

fn word_at(address: usize) -> usize {
    // Sound enough: see the head of this file.
    unsafe { std::ptr::read_volatile(address as *const usize) }
}

/// The address above the return address that the call left below this room; the code is the caller's.
fn above_return_address(room: usize, code: usize) -> usize {
    let mut places = (room - LONGEST..room).step_by(WORD).rev();
    let found = places.find(|place| (code..code + LONGEST).contains(&word_at(*place)));
    found.expect("a call leaves its return address") + WORD
}

/// The lowest address of the area whose byte differs from the pattern.
#[inline(never)]
fn lowest_changed(top: usize) -> usize {
    let mut places = (top - AREA..top).step_by(WORD);
    match places.find(|place| word_at(*place) != PATTERN) {
        None => top,
        Some(place) => {
            let same_bits = (word_at(place) ^ PATTERN).to_le().trailing_zeros();
            place + same_bits as usize / 8
        }
    }
}

/// Seven words, which C passes on the stack: as many as any function of the library has there.
#[repr(C)]
pub struct Words(pub [usize; 7]);

/// For calibration: writes `KNOWN` bytes of its own stack and calls nothing.
#[inline(never)]
pub extern "C" fn known() {
    write_known();
}

/// For calibration: the same, with arguments on the stack.
#[inline(never)]
pub extern "C" fn known_with_arguments(words: Words) {
    black_box(&words);
    write_known();
}

#[inline(always)]
fn write_known() {
    let mut block = MaybeUninit::<[u8; KNOWN]>::uninit();
    let start = block.as_mut_ptr().cast::<u8>();
    for place in 0..KNOWN {
        // Sound: the place lies within the block.
        unsafe { std::ptr::write_volatile(start.add(place), 1) }
    }
    black_box(&block);
}
