//! The least processor time of two calls that take turns, on the same question and warm buffers, which nothing
//! clears or moves between runs.

use crate::pairs::{Call, Pair};
use crate::progress::Progress;
use noolukask_tests::rules::Question;

/// What is compared: our call and Rust's, on questions and a sheet or out marks. Where there are several
/// questions the calls go round them, so that no branch is foreseen because it was seen before.
pub struct Trial<'a> {
    pub what: &'a str,
    pub pair: Pair,
    pub questions: &'a [Question],
    pub buffer: &'a [u8],
}

/// Nanoseconds a call, over so many turns of so many calls each; and what both calls returned.
pub struct Least {
    pub ours: f64,
    pub rust: f64,
    pub turns: u32,
    pub calls: u32,
    pub back: u64,
}

const LEAST_TURNS: u32 = 10;
/// For so long at least turns go on, in nanoseconds of both together.
const ENOUGH: f64 = 1e9;
/// So long, in nanoseconds, a turn of the quicker one takes at least: short calls are timed many at a time,
/// since the clock has its own cost.
const TURN: f64 = 300e3;

#[repr(C)]
struct Timespec {
    seconds: i64,
    nanoseconds: i64,
}

extern "C" {
    fn clock_gettime(clock: i32, time: *mut Timespec) -> i32;
}

/// Nanoseconds that this thread had the processor: what others run meanwhile does not count.
fn processor_time() -> f64 {
    const THREAD: i32 = 3;
    let mut time = Timespec { seconds: 0, nanoseconds: 0 };
    // SAFETY: the pointer is of a timespec as Linux has it on a 64-bit machine.
    let failed = unsafe { clock_gettime(THREAD, &mut time) };
    assert_eq!(failed, 0, "the thread has a clock");
    time.seconds as f64 * 1e9 + time.nanoseconds as f64
}

/// One turn: nanoseconds a call, with the results compared. The compiler cannot know which call it will be,
/// and so can neither leave it out nor move it.
fn turn(call: Call, questions: &[Question], buffer: &mut [u8], expected: u64, calls: u32) -> f64 {
    // SAFETY: the pointer is of a value that may be copied.
    let call = unsafe { std::ptr::read_volatile(&call) };
    let start = processor_time();
    for question in questions.iter().cycle().take(calls as usize) {
        assert_eq!(call(question, buffer), expected);
    }
    (processor_time() - start) / f64::from(calls)
}

/// Who goes first alternates. Each has its own buffer, and both leave the same bytes.
pub fn least(trial: &Trial, progress: &mut Progress) -> Least {
    let &Trial { what, pair: Pair { ours, rust }, questions, buffer } = trial;
    progress.begin(what);
    let (mut our_buffer, mut rust_buffer) = (buffer.to_vec(), buffer.to_vec());
    let back = rust(&questions[0], &mut rust_buffer);
    let mut take = |our_turn: bool, calls: u32| match our_turn {
        true => turn(ours, questions, &mut our_buffer, back, calls),
        false => turn(rust, questions, &mut rust_buffer, back, calls),
    };
    let quicker = take(true, 1).min(take(true, 1)).min(take(false, 1)).min(take(false, 1));
    let calls = (TURN / quicker).ceil() as u32;
    let mut best = Least { ours: f64::MAX, rust: f64::MAX, turns: 0, calls, back };
    let mut taken = 0.0;
    while best.turns < LEAST_TURNS || taken < ENOUGH {
        for our_turn in [best.turns % 2 == 0, best.turns % 2 == 1] {
            let time = take(our_turn, calls);
            taken += time * f64::from(calls);
            let best = if our_turn { &mut best.ours } else { &mut best.rust };
            *best = best.min(time);
        }
        best.turns += 1;
        progress.go_on(what, best.turns);
    }
    progress.clear();
    assert!(our_buffer == rust_buffer, "{what}: the buffers differ");
    best
}
