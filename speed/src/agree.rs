//! The Rust programs answer as the calls do, on random questions: a rival that is wrong is no rival.

use crate::inputs::{OUT, ROOM};
use crate::pairs::{self, Pair};
use crate::progress::Progress;
use noolukask_tests::packs::{self, Shape};
use noolukask_tests::rng::Rng;
use noolukask_tests::rules::{show, Question};

/// What both return and leave in a buffer, which is the same.
fn same(pair: Pair, q: &Question, buffer: &[u8]) -> (u64, Vec<u8>) {
    let (mut ours, mut rust) = (buffer.to_vec(), buffer.to_vec());
    let back = (pair.ours)(q, &mut ours);
    assert_eq!(back, (pair.rust)(q, &mut rust), "{}", show(q));
    assert!(ours == rust, "{}", show(q));
    (back, ours)
}

/// Both checks, on our sheet and on the sheet with one byte damaged.
fn checks(rng: &mut Rng, q: &Question, sheet: &[u8]) {
    let mut damaged = sheet.to_vec();
    if !sheet.is_empty() {
        damaged[rng.below(sheet.len())] ^= 1 << rng.below(8);
    }
    for sheet in [sheet, &damaged] {
        for pair in [pairs::YES, pairs::NO, pairs::NO_WALKED] {
            same(pair, q, sheet);
        }
    }
}

fn question(rng: &mut Rng, q: &Question) {
    same(pairs::PACK, q, &[]);
    same(pairs::VERDICT, q, &[]);
    same(pairs::VERDICT_BY_ROWS, q, &[]);
    same(pairs::SHEET_BY_ROWS, q, &vec![0; ROOM]);
    same(pairs::SHEET, q, &[]);
    let (back, sheet) = same(pairs::SHEET, q, &vec![0; ROOM]);
    // Refusals have no sheet; else the value is twice its parts, and 1 more for a yes sheet.
    let parts = if back % 256 == 0 { back / 512 } else { 0 };
    checks(rng, q, &sheet[..8 * parts as usize]);
    same(pairs::MODULE, q, &[0; OUT]);
    same(pairs::MODULE_BY_PASSES, q, &[0; OUT]);
    same(pairs::SET, q, &[0; OUT]);
    if q.pack.len() <= 8 * 170 {
        same(pairs::SET_BY_DELETION, q, &[0; OUT]);
        same(pairs::SET_BY_VERDICTS, q, &[0; OUT]);
    }
}

/// Small questions of all sizes, some of them with a byte of the pack damaged, and large ones: two of each shape at
/// least. All kinds are in them, and in some a fifth of the records are of kind 7.
pub fn assert_alike(rng: &mut Rng, progress: &mut Progress) {
    let what = "comparing what the programs answer";
    progress.begin(what);
    for turn in 0..1000 {
        let (n, m, count) = (rng.between(1, 12), rng.between(0, 4), rng.below(40));
        let mut q = packs::random_question(rng, n, m, count);
        if turn % 10 == 0 && count > 0 {
            q.pack[rng.below(8 * count)] ^= 1 << rng.below(8);
        }
        question(rng, &q);
        progress.go_on(what, turn);
    }
    for turn in 0..48 {
        let q = packs::large_question(rng, Shape::at(turn));
        question(rng, &q);
        progress.go_on(what, 1000 + turn as u32);
    }
    progress.clear();
}
