//! The calls and the Rust programs that they are measured against, all of one shape.

use crate::concepts::{Columns, Rows};
use crate::{engine, fast, ours, reasons};
use noolukask_tests::rules::Question;

/// A question, and the sheet or the out marks.
pub type Call = fn(&Question, &mut [u8]) -> u64;

#[derive(Clone, Copy)]
pub struct Pair {
    pub ours: Call,
    pub rust: Call,
}

pub const PACK: Pair = Pair { ours: ours::check_pack, rust: |q, _| fast::check_pack(q.n, q.m, &q.pack) };
pub const YES: Pair = Pair { ours: ours::check_yes, rust: |q, sheet| fast::check_yes(q, sheet) };
pub const NO: Pair = Pair { ours: ours::check_no, rust: |q, sheet| fast::check_no::<true>(q, sheet) };
/// Rust walks every chain.
pub const NO_WALKED: Pair = Pair { ours: ours::check_no, rust: |q, sheet| fast::check_no::<false>(q, sheet) };
pub const VERDICT: Pair = Pair { ours: ours::verdict, rust: |q, _| engine::verdict::<Columns>(q) };
/// Rust has rows of concepts, as ours has.
pub const VERDICT_BY_ROWS: Pair = Pair { ours: ours::verdict, rust: |q, _| engine::verdict::<Rows>(q) };
pub const SHEET: Pair = Pair { ours: ours::write_sheet, rust: engine::write_sheet::<Columns> };
pub const SHEET_BY_ROWS: Pair = Pair { ours: ours::write_sheet, rust: engine::write_sheet::<Rows> };
/// Rust reads a record whenever a pass comes to it.
pub const MODULE_BY_PASSES: Pair = Pair { ours: ours::module, rust: reasons::module_by_passes };
pub const MODULE: Pair = Pair { ours: ours::module, rust: reasons::module };
pub const SET: Pair = Pair { ours: ours::printed_set, rust: reasons::set_by_halving };
/// Rust deletes record by record.
pub const SET_BY_DELETION: Pair = Pair { ours: ours::printed_set, rust: reasons::set_by_deletion };
/// Deletion record by record that asks our verdict.
pub const SET_BY_VERDICTS: Pair = Pair { ours: ours::printed_set, rust: reasons::set_by_our_verdicts };
