//! Packs on which the passes run for long or fill the tables.

use crate::packs;
use crate::rules::Question;

/// n - 1 records of kind 1 for 0 under 1 under 2 and so on, the last one first: each of n - 1 passes goes
/// one further, and pass n adds nothing. The goal (0, n-1) is the last fact of all.
pub fn reverse(n: u8) -> Question {
    let records: Vec<[u8; 4]> = (0..n - 1).rev().map(|x| [1, x, x + 1, 0]).collect();
    packs::question(n.into(), 0, &records, 0, u64::from(n) - 1)
}

/// Every fact there can be at n = 64 and m = 8: 36,800 additions in the first pass, the goal the last.
pub fn fullest() -> Question {
    let mut records: Vec<[u8; 4]> = (1..64).map(|x| [1, x, 0, 0]).collect();
    records.extend((0..8).flat_map(|r| (0..64).map(move |y| [3, 0, r, y])));
    records.extend((1..64).map(|b| [1, 0, b, 0]));
    packs::question(64, 8, &records, 62, 63)
}

/// m - 2 counters, one after the other, over k = n - 2·(m - 2) things: (m - 2)·k·(k + 1) + 1 passes.
/// The goal is the last fact of all; nothing but thing 0 is ever in 0.
///
/// Role 0 leads down, from y to y - 1; role 1 from 0 back to the top, k - 1; every other role counts, with
/// two concepts of its own, START and END. A thing in START is linked to the top. The chain with role 0
/// takes that link down by one a pass, since the sweep has left the lower things behind already. A thing
/// linked to 0 is in END, which puts the next thing in START; and when the top is in END the next counter
/// starts with 0. What is needed first stands last in the pack.
pub fn counters(n: u8, m: u8) -> Question {
    let k = n - 2 * (m - 2);
    let (down, again, top) = (0, 1, k - 1);
    let start = |role: u8| k + 2 * (role - 2);
    let end = |role: u8| start(role) + 1;
    let mut records: Vec<[u8; 4]> = Vec::new();
    for role in (2..m).rev() {
        records.push([3, start(role), role, top]);
        records.push(if role == 2 { [1, 0, start(2), 0] } else { [4, again, end(role - 1), start(role)] });
        records.push([4, down, end(role), start(role)]);
        records.push([4, role, 0, end(role)]);
        records.push([6, role, down, role]);
    }
    records.push([3, 0, again, top]);
    records.extend((1..k).map(|y| [3, y, down, y - 1]));
    packs::question(n.into(), m.into(), &records, top.into(), end(m - 1).into())
}

#[cfg(test)]
mod tests {
    use super::*;
    use crate::rules::check_question;

    #[test]
    fn they_are_good() {
        let mut counts: Vec<u64> = Vec::new();
        for q in [reverse(64), fullest(), counters(64, 3), counters(64, 8)] {
            counts.push(check_question(&q).expect("a good question"));
        }
        assert_eq!(counts, [63, 638, 67, 82]);
    }
}
