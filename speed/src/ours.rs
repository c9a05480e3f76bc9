//! The calls that are measured, all of one shape: a question, and the sheet or the out marks.

use noolukask_tests::calls::raw;
use noolukask_tests::rules::Question;

pub fn check_yes(q: &Question, sheet: &mut [u8]) -> u64 {
    // SAFETY: each pointer and length are of one slice that lives through the call.
    unsafe {
        raw::noolukask_check_yes(
            q.n, q.m, q.pack.as_ptr(), q.pack.len(), q.marks.as_ptr(), q.marks.len(), q.a, q.b,
            sheet.as_ptr(), sheet.len(),
        )
    }
}

pub fn check_no(q: &Question, sheet: &mut [u8]) -> u64 {
    // SAFETY: as above.
    unsafe {
        raw::noolukask_check_no(
            q.n, q.m, q.pack.as_ptr(), q.pack.len(), q.marks.as_ptr(), q.marks.len(), q.a, q.b,
            sheet.as_ptr(), sheet.len(),
        )
    }
}

pub fn check_pack(q: &Question, _: &mut [u8]) -> u64 {
    // SAFETY: as above.
    unsafe { raw::noolukask_check_pack(q.n, q.m, q.pack.as_ptr(), q.pack.len()) }
}

pub fn verdict(q: &Question, _: &mut [u8]) -> u64 {
    // SAFETY: as above.
    unsafe {
        raw::noolukask_verdict(
            q.n, q.m, q.pack.as_ptr(), q.pack.len(), q.marks.as_ptr(), q.marks.len(), q.a, q.b,
        )
    }
}

pub fn write_sheet(q: &Question, sheet: &mut [u8]) -> u64 {
    // SAFETY: as above; only the call writes to the sheet meanwhile.
    unsafe {
        raw::noolukask_write_sheet(
            q.n, q.m, q.pack.as_ptr(), q.pack.len(), q.marks.as_ptr(), q.marks.len(), q.a, q.b,
            sheet.as_mut_ptr(), sheet.len(),
        )
    }
}

pub fn module(q: &Question, out: &mut [u8]) -> u64 {
    // SAFETY: as above; only the call writes to the out marks meanwhile.
    unsafe {
        raw::noolukask_module(
            q.n, q.m, q.pack.as_ptr(), q.pack.len(), q.marks.as_ptr(), q.marks.len(), q.a,
            out.as_mut_ptr(), out.len(),
        )
    }
}

pub fn printed_set(q: &Question, out: &mut [u8]) -> u64 {
    // SAFETY: as above.
    unsafe {
        raw::noolukask_printed_set(
            q.n, q.m, q.pack.as_ptr(), q.pack.len(), q.marks.as_ptr(), q.marks.len(), q.a, q.b,
            out.as_mut_ptr(), out.len(),
        )
    }
}
