//! The library as C sees it: all unsafe code of the service.
//!
//! Nothing compares these declarations with the library's source. A `&[u8]` or a `&mut [u8]` there
//! is a pointer and then a length here.

#![allow(unsafe_code)]

unsafe extern "C" {
    fn leaveoff_match(
        table: *const u8,
        length: usize,
        s1: i32,
        s2: i32,
        s3: i32,
        s4: i32,
        s5: i32,
        s6: i32,
    ) -> u64;

    fn leaveoff_eliminate(
        table: *const u8,
        length: usize,
        out: *mut u8,
        out_length: usize,
        work: *mut u8,
        work_length: usize,
    ) -> u64;

    fn leaveoff_test(
        table: *const u8,
        length: usize,
        setting: i32,
        out: *mut u8,
        out_length: usize,
        work: *mut u8,
        work_length: usize,
    ) -> u64;
}

/// Matching, its answer packed.
pub fn matching(table: &[u8], [s1, s2, s3, s4, s5, s6]: [i32; 6]) -> u64 {
    // SAFETY: the pointer and the length are those of one slice, which is lent until the call
    // returns. The library reads these bytes, writes none and keeps no pointer; its contract asks
    // nothing of the bytes or the values.
    unsafe { leaveoff_match(table.as_ptr(), table.len(), s1, s2, s3, s4, s5, s6) }
}

/// Elimination, its answer packed.
pub fn eliminate(table: &[u8], out: &mut [u8], work: &mut [u8]) -> u64 {
    // SAFETY: each pointer and the length behind it are those of one slice, lent until the call
    // returns; the two that are written are lent alone, so none of the three overlaps another. The
    // library keeps no pointer; its contract asks nothing of the bytes or the lengths.
    unsafe {
        leaveoff_eliminate(
            table.as_ptr(),
            table.len(),
            out.as_mut_ptr(),
            out.len(),
            work.as_mut_ptr(),
            work.len(),
        )
    }
}

/// The leave-off test, its answer packed.
pub fn leave_off(table: &[u8], setting: i32, out: &mut [u8], work: &mut [u8]) -> u64 {
    // SAFETY: as in `eliminate`; the contract asks nothing of the setting either.
    unsafe {
        leaveoff_test(
            table.as_ptr(),
            table.len(),
            setting,
            out.as_mut_ptr(),
            out.len(),
            work.as_mut_ptr(),
            work.len(),
        )
    }
}
