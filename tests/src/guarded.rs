//! Memory to lend to a call. Whoever reads or writes past its guarded end stops the program at once; where it does
//! not end at a guard it ends at a fence, and a byte written there is seen afterwards.

use crate::rng::Rng;
use std::cell::RefCell;
use std::ops::Range;
use std::os::raw::{c_int, c_void};

extern "C" {
    fn mmap(at: *mut c_void, len: usize, may: c_int, how: c_int, file: c_int, offset: i64) -> *mut c_void;
    fn mprotect(at: *mut c_void, len: usize, may: c_int) -> c_int;
    fn munmap(at: *mut c_void, len: usize) -> c_int;
}

// As Linux has them on x86-64, for which the libraries are.
const READ_AND_WRITE: c_int = 1 | 2;
const NOTHING: c_int = 0;
const PRIVATE_AND_OF_NO_FILE: c_int = 0x02 | 0x20;

/// Multiples of every page size in use. The room is for the longest buffer that a test lends.
const GUARD: usize = 1 << 16;
const ROOM: usize = 1 << 20;

const FENCE: u8 = 0xA5;
const FENCE_LEN: usize = 16;

/// Pages of room between two guards.
struct Pages(*mut u8);

impl Pages {
    fn new() -> Pages {
        let len = GUARD + ROOM + GUARD;
        // SAFETY: new pages, at an address of the system's choice.
        let start = unsafe { mmap(std::ptr::null_mut(), len, NOTHING, PRIVATE_AND_OF_NO_FILE, -1, 0) };
        assert!(start as isize != -1, "no memory");
        let room = start.cast::<u8>().wrapping_add(GUARD);
        // SAFETY: the pages in the middle of those.
        assert_eq!(unsafe { mprotect(room.cast(), ROOM, READ_AND_WRITE) }, 0);
        Pages(room)
    }

    fn room(&self) -> &[u8] {
        // SAFETY: ROOM bytes that may be read, for as long as the pages are there.
        unsafe { std::slice::from_raw_parts(self.0, ROOM) }
    }

    fn room_mut(&mut self) -> &mut [u8] {
        // SAFETY: the same, and they may be written.
        unsafe { std::slice::from_raw_parts_mut(self.0, ROOM) }
    }
}

impl Drop for Pages {
    fn drop(&mut self) {
        // SAFETY: all that was mapped, and nothing points there any more.
        unsafe { munmap(self.0.wrapping_sub(GUARD).cast(), GUARD + ROOM + GUARD) };
    }
}

/// Where bytes lie in the room.
#[derive(Clone, Copy)]
enum Place {
    Start,
    End,
    /// Between two fences, so many bytes past an address that 8 divides.
    Middle(usize),
}

const PLACES: [Place; 9] = [
    Place::Start, Place::End, Place::Middle(1), Place::End, Place::Start, Place::Middle(3), Place::Start,
    Place::End, Place::Middle(6),
];

thread_local! {
    /// Pages that no buffer is in: to map them for each call would take longer than the call.
    static FREE: RefCell<Vec<Pages>> = const { RefCell::new(Vec::new()) };
    static DRAWN: RefCell<Rng> = RefCell::new(Rng::new(1));
}

/// A copy of bytes, at the start or at the end of the room or between fences.
pub struct Guarded {
    pages: Option<Pages>,
    copy: Range<usize>,
}

impl Guarded {
    pub fn new(bytes: &[u8]) -> Guarded {
        Guarded::at(bytes, DRAWN.with(|rng| rng.borrow_mut().pick(&PLACES)))
    }

    fn at(bytes: &[u8], place: Place) -> Guarded {
        let start = match place {
            Place::Start => 0,
            Place::End => ROOM - bytes.len(),
            Place::Middle(more) => FENCE_LEN + more,
        };
        let copy = start..start + bytes.len();
        assert!(copy.end + FENCE_LEN <= ROOM || copy.end == ROOM, "no room for {} bytes", bytes.len());
        let mut pages = FREE.with(|free| free.borrow_mut().pop()).unwrap_or_else(Pages::new);
        let room = pages.room_mut();
        fences(&copy).for_each(|fence| room[fence].fill(FENCE));
        room[copy.clone()].copy_from_slice(bytes);
        Guarded { pages: Some(pages), copy }
    }

    fn pages(&self) -> &Pages {
        self.pages.as_ref().expect("pages until they are given back")
    }

    pub fn as_ptr(&self) -> *const u8 {
        self.pages().0.wrapping_add(self.copy.start)
    }

    /// For a call that may write there.
    pub fn as_mut_ptr(&mut self) -> *mut u8 {
        self.pages().0.wrapping_add(self.copy.start)
    }

    fn fences_stand(&self) -> bool {
        fences(&self.copy).all(|fence| self.pages().room()[fence].iter().all(|&byte| byte == FENCE))
    }

    /// What is there now; beside it nothing was written.
    pub fn bytes(&self) -> &[u8] {
        assert!(self.fences_stand(), "a call wrote beside its buffer");
        &self.pages().room()[self.copy.clone()]
    }
}

/// The fences before and after a copy: as far as the room goes.
fn fences(copy: &Range<usize>) -> impl Iterator<Item = Range<usize>> {
    let before = copy.start.saturating_sub(FENCE_LEN)..copy.start;
    let after = copy.end..(copy.end + FENCE_LEN).min(ROOM);
    [before, after].into_iter()
}

impl Drop for Guarded {
    fn drop(&mut self) {
        let pages = self.pages.take();
        FREE.with(|free| free.borrow_mut().extend(pages));
    }
}

#[cfg(test)]
mod tests {
    use super::*;

    extern "C" {
        fn fork() -> c_int;
        fn waitpid(process: c_int, status: *mut c_int, how: c_int) -> c_int;
        fn _exit(status: c_int) -> !;
    }

    const SEGMENT_FAULT: c_int = 11;

    /// Whether a process that reads, or writes, this byte is stopped.
    fn is_stopped(byte: *mut u8, write: bool) -> bool {
        // SAFETY: the new process touches one byte, which may stop it, and ends.
        unsafe {
            let process = fork();
            assert!(process >= 0, "no process");
            if process == 0 {
                if write {
                    byte.write_volatile(0);
                } else {
                    byte.read_volatile();
                }
                _exit(0);
            }
            let mut status = 0;
            assert_eq!(waitpid(process, &mut status, 0), process);
            assert!([0, SEGMENT_FAULT].contains(&(status & 0x7F)), "it ended in another way: {status}");
            status & 0x7F == SEGMENT_FAULT
        }
    }

    #[test]
    fn who_goes_past_a_guarded_end_is_stopped() {
        for len in [0, 1, 7, 8, 128, 4096, 8200, 600_000] {
            let bytes = vec![1; len];
            for write in [false, true] {
                let mut last = Guarded::at(&bytes, Place::End);
                let end = last.as_mut_ptr().wrapping_add(len);
                assert!(is_stopped(end, write) && is_stopped(end.wrapping_add(7), write));
                assert!(!is_stopped(end.wrapping_sub(1), write));
                let mut first = Guarded::at(&bytes, Place::Start);
                let start = first.as_mut_ptr();
                assert!(is_stopped(start.wrapping_sub(1), write) && is_stopped(start.wrapping_sub(8), write));
                assert!(!is_stopped(start, write));
            }
        }
    }

    #[test]
    fn what_is_written_beside_a_buffer_is_seen() {
        for (place, beside) in [(Place::Start, 24), (Place::End, -1), (Place::Middle(3), -1), (Place::Middle(3), 24)] {
            let mut lent = Guarded::at(&[7; 24], place);
            assert!(lent.fences_stand() && lent.bytes() == [7; 24]);
            // SAFETY: a fence is there.
            unsafe { lent.as_mut_ptr().offset(beside).write(0) };
            assert!(!lent.fences_stand());
        }
    }

    #[test]
    fn every_place_comes_for_every_buffer_of_a_call() {
        let mut seen = [[0; 3]; 2];
        for _ in 0..600 {
            for (times, lent) in seen.iter_mut().zip([Guarded::new(&[1; 128]), Guarded::new(&[2; 8])]) {
                let guarded = [lent.copy.start == 0, lent.copy.end == ROOM, true];
                times[guarded.iter().position(|&there| there).expect("the last one")] += 1;
            }
        }
        assert!(seen.concat().iter().all(|&times| times > 100), "{seen:?}");
    }
}
