//! The calls under test, as include/noolukask.h declares them, and safe wrappers of them.
//! The wrappers lend guarded copies and compare every byte afterwards.

use crate::guarded::Guarded;
use crate::rules::Question;

/// The calls as they are, for measurements too. A `&[u8]` is a pointer and then a length.
pub mod raw {
    extern "C" {
        pub fn noolukask_check_pack(n: u64, m: u64, pack: *const u8, pack_len: usize) -> u64;
        pub fn noolukask_check_question(
            n: u64, m: u64, pack: *const u8, pack_len: usize,
            marks: *const u8, marks_len: usize, a: u64, b: u64,
        ) -> u64;
        pub fn noolukask_check_yes(
            n: u64, m: u64, pack: *const u8, pack_len: usize,
            marks: *const u8, marks_len: usize, a: u64, b: u64,
            sheet: *const u8, sheet_len: usize,
        ) -> u64;
        pub fn noolukask_check_no(
            n: u64, m: u64, pack: *const u8, pack_len: usize,
            marks: *const u8, marks_len: usize, a: u64, b: u64,
            sheet: *const u8, sheet_len: usize,
        ) -> u64;
        pub fn noolukask_verdict(
            n: u64, m: u64, pack: *const u8, pack_len: usize,
            marks: *const u8, marks_len: usize, a: u64, b: u64,
        ) -> u64;
        pub fn noolukask_write_sheet(
            n: u64, m: u64, pack: *const u8, pack_len: usize,
            marks: *const u8, marks_len: usize, a: u64, b: u64,
            sheet: *mut u8, sheet_len: usize,
        ) -> u64;
        pub fn noolukask_module(
            n: u64, m: u64, pack: *const u8, pack_len: usize,
            marks: *const u8, marks_len: usize, a: u64,
            out: *mut u8, out_len: usize,
        ) -> u64;
        pub fn noolukask_printed_set(
            n: u64, m: u64, pack: *const u8, pack_len: usize,
            marks: *const u8, marks_len: usize, a: u64, b: u64,
            out: *mut u8, out_len: usize,
        ) -> u64;
    }
}

/// Bytes for a buffer before a call, no two places near each other alike.
pub fn filled(len: usize) -> Vec<u8> {
    (0..len).map(|i| (i as u8).wrapping_mul(37) ^ (i >> 8) as u8 ^ 0x5A).collect()
}

/// A copy of bytes that a call reads.
struct Lent<'a> {
    bytes: &'a [u8],
    copy: Guarded,
}

impl<'a> Lent<'a> {
    fn new(bytes: &'a [u8]) -> Lent<'a> {
        Lent { bytes, copy: Guarded::new(bytes) }
    }

    fn at(&self) -> *const u8 {
        self.copy.as_ptr()
    }

    fn len(&self) -> usize {
        self.bytes.len()
    }

    fn assert_unchanged(&self) {
        assert!(self.copy.bytes() == self.bytes, "a call changed its input");
    }
}

pub fn check_pack(n: u64, m: u64, pack: &[u8]) -> u64 {
    let pack = Lent::new(pack);
    // SAFETY: pointer and length are of one slice that lives through the call.
    let back = unsafe { raw::noolukask_check_pack(n, m, pack.at(), pack.len()) };
    pack.assert_unchanged();
    back
}

pub fn check_question(q: &Question) -> u64 {
    let (pack, marks) = (Lent::new(&q.pack), Lent::new(&q.marks));
    // SAFETY: as above.
    let back = unsafe {
        raw::noolukask_check_question(
            q.n, q.m, pack.at(), pack.len(), marks.at(), marks.len(), q.a, q.b,
        )
    };
    pack.assert_unchanged();
    marks.assert_unchanged();
    back
}

pub fn check_yes(q: &Question, sheet: &[u8]) -> u64 {
    let (pack, marks, sheet) = (Lent::new(&q.pack), Lent::new(&q.marks), Lent::new(sheet));
    // SAFETY: as above.
    let back = unsafe {
        raw::noolukask_check_yes(
            q.n, q.m, pack.at(), pack.len(), marks.at(), marks.len(), q.a, q.b,
            sheet.at(), sheet.len(),
        )
    };
    [pack, marks, sheet].iter().for_each(Lent::assert_unchanged);
    back
}

pub fn check_no(q: &Question, sheet: &[u8]) -> u64 {
    let (pack, marks, sheet) = (Lent::new(&q.pack), Lent::new(&q.marks), Lent::new(sheet));
    // SAFETY: as above.
    let back = unsafe {
        raw::noolukask_check_no(
            q.n, q.m, pack.at(), pack.len(), marks.at(), marks.len(), q.a, q.b,
            sheet.at(), sheet.len(),
        )
    };
    [pack, marks, sheet].iter().for_each(Lent::assert_unchanged);
    back
}

pub fn verdict(q: &Question) -> u64 {
    let (pack, marks) = (Lent::new(&q.pack), Lent::new(&q.marks));
    // SAFETY: as above.
    let back = unsafe {
        raw::noolukask_verdict(q.n, q.m, pack.at(), pack.len(), marks.at(), marks.len(), q.a, q.b)
    };
    pack.assert_unchanged();
    marks.assert_unchanged();
    back
}

/// What comes back, and what a buffer that held `before` holds afterwards.
pub fn write_sheet(q: &Question, before: &[u8]) -> (u64, Vec<u8>) {
    let (pack, marks, mut sheet) = (Lent::new(&q.pack), Lent::new(&q.marks), Guarded::new(before));
    // SAFETY: as above; only the call writes to the buffer meanwhile.
    let back = unsafe {
        raw::noolukask_write_sheet(
            q.n, q.m, pack.at(), pack.len(), marks.at(), marks.len(), q.a, q.b,
            sheet.as_mut_ptr(), before.len(),
        )
    };
    pack.assert_unchanged();
    marks.assert_unchanged();
    (back, sheet.bytes().to_vec())
}

/// The sheet writer with NULL and length 0 for the buffer, as a first call that asks for the room.
pub fn write_sheet_to_null(q: &Question) -> u64 {
    let (pack, marks) = (Lent::new(&q.pack), Lent::new(&q.marks));
    // SAFETY: as above; no byte is written where the length is 0.
    let back = unsafe {
        raw::noolukask_write_sheet(
            q.n, q.m, pack.at(), pack.len(), marks.at(), marks.len(), q.a, q.b,
            std::ptr::null_mut(), 0,
        )
    };
    pack.assert_unchanged();
    marks.assert_unchanged();
    back
}

/// The yes check and the no check with NULL and length 0 for the sheet.
pub fn checks_of_null(q: &Question) -> [u64; 2] {
    let (pack, marks, null) = (Lent::new(&q.pack), Lent::new(&q.marks), std::ptr::null());
    let (pack_len, marks_len) = (pack.len(), marks.len());
    // SAFETY: as above; no byte is read where the length is 0.
    let back = unsafe {
        [
            raw::noolukask_check_yes(q.n, q.m, pack.at(), pack_len, marks.at(), marks_len, q.a, q.b, null, 0),
            raw::noolukask_check_no(q.n, q.m, pack.at(), pack_len, marks.at(), marks_len, q.a, q.b, null, 0),
        ]
    };
    [pack, marks].iter().for_each(Lent::assert_unchanged);
    back
}

/// The module of `q.a`: what comes back, and what out marks that held `before` hold afterwards.
pub fn module(q: &Question, before: &[u8]) -> (u64, Vec<u8>) {
    let (pack, marks, mut out) = (Lent::new(&q.pack), Lent::new(&q.marks), Guarded::new(before));
    // SAFETY: as above; only the call writes to the out marks meanwhile.
    let back = unsafe {
        raw::noolukask_module(
            q.n, q.m, pack.at(), pack.len(), marks.at(), marks.len(), q.a, out.as_mut_ptr(), before.len(),
        )
    };
    pack.assert_unchanged();
    marks.assert_unchanged();
    (back, out.bytes().to_vec())
}

/// The printed set, in the same way.
pub fn printed_set(q: &Question, before: &[u8]) -> (u64, Vec<u8>) {
    let (pack, marks, mut out) = (Lent::new(&q.pack), Lent::new(&q.marks), Guarded::new(before));
    // SAFETY: as above.
    let back = unsafe {
        raw::noolukask_printed_set(
            q.n, q.m, pack.at(), pack.len(), marks.at(), marks.len(), q.a, q.b,
            out.as_mut_ptr(), before.len(),
        )
    };
    pack.assert_unchanged();
    marks.assert_unchanged();
    (back, out.bytes().to_vec())
}

/// All eight calls on an empty pack, in the order of the header, with NULL and length 0 for the pack and for the
/// sheet, and for the marks and the out marks where they are empty. Then what the out marks of both calls hold.
pub fn with_null(n: u64, a: u64, b: u64, marks: &[u8], before: &[u8]) -> ([u64; 8], [Vec<u8>; 2]) {
    let (null, none) = (std::ptr::null(), std::ptr::null_mut());
    let lent = Lent::new(marks);
    let marked = if marks.is_empty() { null } else { lent.at() };
    let (mut module, mut set) = (Guarded::new(before), Guarded::new(before));
    let out = |lent: &mut Guarded| if before.is_empty() { none } else { lent.as_mut_ptr() };
    let (len, out_len) = (marks.len(), before.len());
    // SAFETY: no byte is read or written where the length is 0; the marks and the out marks are as above.
    let back = unsafe {
        [
            raw::noolukask_check_pack(n, 0, null, 0),
            raw::noolukask_check_question(n, 0, null, 0, marked, len, a, b),
            raw::noolukask_verdict(n, 0, null, 0, marked, len, a, b),
            raw::noolukask_write_sheet(n, 0, null, 0, marked, len, a, b, none, 0),
            raw::noolukask_module(n, 0, null, 0, marked, len, a, out(&mut module), out_len),
            raw::noolukask_printed_set(n, 0, null, 0, marked, len, a, b, out(&mut set), out_len),
            raw::noolukask_check_yes(n, 0, null, 0, marked, len, a, b, null, 0),
            raw::noolukask_check_no(n, 0, null, 0, marked, len, a, b, null, 0),
        ]
    };
    lent.assert_unchanged();
    (back, [module.bytes().to_vec(), set.bytes().to_vec()])
}
