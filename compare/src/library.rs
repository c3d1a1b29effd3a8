//! The proved library over its C interface, as `include/crosspoint.h` declares it. Each function here has the parameters of that
//! interface, a list as a slice, and answers what the library answers. Linked with the feature `library` alone.

mod c {
    extern "C" {
        pub fn crosspoint_match_table(
            m: u32,
            n: u32,
            counts: *const u16,
            counts_len: usize,
            hold: u32,
            partners: *mut u16,
            partners_len: usize,
            totals: *mut u32,
            totals_len: usize,
        ) -> u32;
        pub fn crosspoint_match_weights(
            m: u32,
            n: u32,
            rows: *const u32,
            rows_len: usize,
            inputs: *const u32,
            inputs_len: usize,
            outputs: *const u32,
            outputs_len: usize,
            partners: *mut u16,
            partners_len: usize,
            totals: *mut u32,
            totals_len: usize,
        ) -> u32;
        pub fn crosspoint_rank_form(
            m: u32,
            n: u32,
            rows: *const u32,
            rows_len: usize,
            inputs: *mut u32,
            inputs_len: usize,
            outputs: *mut u32,
            outputs_len: usize,
        ) -> u32;
        pub fn crosspoint_fresh(
            m: u32,
            n: u32,
            d: u32,
            record: *mut u32,
            record_len: usize,
            cells: *mut u32,
            cells_len: usize,
            stamps: *mut u32,
            stamps_len: usize,
        ) -> u32;
        pub fn crosspoint_slot(
            record: *mut u32,
            record_len: usize,
            cells: *mut u32,
            cells_len: usize,
            stamps: *mut u32,
            stamps_len: usize,
            hold: u32,
            outputs: *const u16,
            outputs_len: usize,
            arriving: *const u32,
            arriving_len: usize,
            report: *mut u32,
            report_len: usize,
        ) -> u32;
        pub fn crosspoint_log_check(
            log: *const u8,
            log_len: usize,
            answer: *mut u32,
            answer_len: usize,
        ) -> u64;
        pub fn crosspoint_log_read(
            log: *const u8,
            log_len: usize,
            slot: u32,
            hold: *mut u32,
            hold_len: usize,
            outputs: *mut u16,
            outputs_len: usize,
            cells: *mut u32,
            cells_len: usize,
        ) -> u32;
        pub fn crosspoint_log_write(
            m: u32,
            n: u32,
            d: u32,
            holds: *const u32,
            holds_len: usize,
            outputs: *const u16,
            outputs_len: usize,
            cells: *const u32,
            cells_len: usize,
            buffer: *mut u8,
            buffer_len: usize,
        ) -> u64;
    }
}

/// A match from a table of counts and a hold.
pub fn match_table(
    m: u32,
    n: u32,
    counts: &[u16],
    hold: u32,
    partners: &mut [u16],
    totals: &mut [u32],
) -> u32 {
    // Sound: every pointer comes with the length of its list, and no two lists overlap.
    unsafe {
        c::crosspoint_match_table(
            m,
            n,
            counts.as_ptr(),
            counts.len(),
            hold,
            partners.as_mut_ptr(),
            partners.len(),
            totals.as_mut_ptr(),
            totals.len(),
        )
    }
}

/// A match from requests and port weights.
pub fn match_weights(
    m: u32,
    n: u32,
    rows: &[u32],
    inputs: &[u32],
    outputs: &[u32],
    partners: &mut [u16],
    totals: &mut [u32],
) -> u32 {
    // Sound: every pointer comes with the length of its list, and no two lists overlap.
    unsafe {
        c::crosspoint_match_weights(
            m,
            n,
            rows.as_ptr(),
            rows.len(),
            inputs.as_ptr(),
            inputs.len(),
            outputs.as_ptr(),
            outputs.len(),
            partners.as_mut_ptr(),
            partners.len(),
            totals.as_mut_ptr(),
            totals.len(),
        )
    }
}

/// Ranks in place of the weights.
pub fn rank_form(m: u32, n: u32, rows: &[u32], inputs: &mut [u32], outputs: &mut [u32]) -> u32 {
    // Sound: every pointer comes with the length of its list, and no two lists overlap.
    unsafe {
        c::crosspoint_rank_form(
            m,
            n,
            rows.as_ptr(),
            rows.len(),
            inputs.as_mut_ptr(),
            inputs.len(),
            outputs.as_mut_ptr(),
            outputs.len(),
        )
    }
}

/// A fresh card.
pub fn fresh(
    m: u32,
    n: u32,
    d: u32,
    record: &mut [u32],
    cells: &mut [u32],
    stamps: &mut [u32],
) -> u32 {
    // Sound: every pointer comes with the length of its list, and no two lists overlap.
    unsafe {
        c::crosspoint_fresh(
            m,
            n,
            d,
            record.as_mut_ptr(),
            record.len(),
            cells.as_mut_ptr(),
            cells.len(),
            stamps.as_mut_ptr(),
            stamps.len(),
        )
    }
}

/// One slot.
pub fn slot(
    record: &mut [u32],
    cells: &mut [u32],
    stamps: &mut [u32],
    hold: u32,
    outputs: &[u16],
    arriving: &[u32],
    report: &mut [u32],
) -> u32 {
    // Sound: every pointer comes with the length of its list, and no two lists overlap.
    unsafe {
        c::crosspoint_slot(
            record.as_mut_ptr(),
            record.len(),
            cells.as_mut_ptr(),
            cells.len(),
            stamps.as_mut_ptr(),
            stamps.len(),
            hold,
            outputs.as_ptr(),
            outputs.len(),
            arriving.as_ptr(),
            arriving.len(),
            report.as_mut_ptr(),
            report.len(),
        )
    }
}

/// The whole-log check: the refusal in the low half, the record's number in the high half.
pub fn log_check(log: &[u8], answer: &mut [u32]) -> u64 {
    // Sound: every pointer comes with the length of its list, and no two lists overlap.
    unsafe { c::crosspoint_log_check(log.as_ptr(), log.len(), answer.as_mut_ptr(), answer.len()) }
}

/// One slot of a log.
pub fn log_read(
    log: &[u8],
    slot: u32,
    hold: &mut [u32],
    outputs: &mut [u16],
    cells: &mut [u32],
) -> u32 {
    // Sound: every pointer comes with the length of its list, and no two lists overlap.
    unsafe {
        c::crosspoint_log_read(
            log.as_ptr(),
            log.len(),
            slot,
            hold.as_mut_ptr(),
            hold.len(),
            outputs.as_mut_ptr(),
            outputs.len(),
            cells.as_mut_ptr(),
            cells.len(),
        )
    }
}

/// The writer: the refusal in the low half, the length written in the high half.
pub fn log_write(
    m: u32,
    n: u32,
    d: u32,
    holds: &[u32],
    outputs: &[u16],
    cells: &[u32],
    buffer: &mut [u8],
) -> u64 {
    // Sound: every pointer comes with the length of its list, and no two lists overlap.
    unsafe {
        c::crosspoint_log_write(
            m,
            n,
            d,
            holds.as_ptr(),
            holds.len(),
            outputs.as_ptr(),
            outputs.len(),
            cells.as_ptr(),
            cells.len(),
            buffer.as_mut_ptr(),
            buffer.len(),
        )
    }
}
