//! Long runs on two threads.

use crate::rng::Rng;

/// What a run counts.
pub trait Counts: Send {
    /// The counts of two runs together.
    fn join(self, other: Self) -> Self;
}

/// Two threads, one seed each: each starts with its own counts and tries one thing after the other until it is
/// done.
pub fn on_two_threads<C: Counts>(
    seed: u64,
    start: impl Fn() -> C + Sync,
    done: fn(&C) -> bool,
    one: fn(&mut Rng, &mut C),
) -> C {
    let run = |seed: u64| {
        let (mut rng, mut counts) = (Rng::new(seed), start());
        while !done(&counts) {
            one(&mut rng, &mut counts);
        }
        counts
    };
    std::thread::scope(|scope| {
        let other = scope.spawn(|| run(seed + 1));
        run(seed).join(other.join().expect("what the other thread found"))
    })
}

#[cfg(test)]
mod tests {
    use super::*;

    impl Counts for Vec<u8> {
        fn join(self, other: Vec<u8>) -> Vec<u8> {
            [self, other].concat()
        }
    }

    #[test]
    fn each_thread_has_its_seed_and_stops_when_done() {
        let drawn = on_two_threads(7, Vec::new, |bytes| bytes.len() == 40, |rng, bytes| bytes.push(rng.byte()));
        assert_eq!(drawn, [Rng::new(7).bytes(40), Rng::new(8).bytes(40)].concat());
    }
}
