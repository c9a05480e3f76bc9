//! The independent side of the tests, written from documents 01 and 02 (request 2/12) alone:
//! rules, a clear checker of sheets, a reasoner, modules and printed sets, makers of packs and sheets, and
//! the calls under test.

pub mod calls;
pub mod chains;
pub mod checker;
pub mod compared;
pub mod damage;
pub mod derive;
pub mod guarded;
pub mod packs;
pub mod reasoner;
pub mod reasons;
pub mod rng;
pub mod rules;
pub mod runs;
pub mod threads;
pub mod trial;
pub mod worlds;
