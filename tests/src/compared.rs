//! The calls that give reasons, each compared with the independent side: the number that comes back and every
//! byte of the out marks; and, by the verdict call, that a set is enough and none of it can be spared.

use crate::calls::{self, filled};
use crate::packs::{marks, places};
use crate::reasons::{self, only};
use crate::rules::{desk_answer, desk_code, show, Question, Refused, NOT_FOLLOWS};

const FOLLOWS: u64 = 256;
const NOT: u64 = 0;

/// What comes back, and what out marks that held `before` hold then.
fn expected(found: Result<Vec<usize>, Refused>, before: &[u8]) -> (u64, Vec<u8>) {
    match found {
        Ok(places) => (256 * places.len() as u64, marks(places)),
        Err(refused) => (desk_code(Err(refused)), before.to_vec()),
    }
}

/// The module call on any question and any out marks: how many records there are, or the refusal.
pub fn ask_module(q: &Question, before: &[u8]) -> Result<u64, Refused> {
    let found = reasons::module_taken(q, before.len()).map(|()| reasons::module(q));
    let got = calls::module(q, before);
    assert_eq!(got, expected(found, before), "module, {} bytes of out marks\n{}", before.len(), show(q));
    desk_answer(got.0)
}

/// The set call on any question and any out marks; the set by deletion.
pub fn ask_set(q: &Question, before: &[u8]) -> Result<u64, Refused> {
    let found = reasons::set_taken(q, before.len());
    let found = found.map(|()| reasons::printed(q).expect("the goal follows"));
    let got = calls::printed_set(q, before);
    assert_eq!(got, expected(found, before), "set, {} bytes of out marks\n{}", before.len(), show(q));
    desk_answer(got.0)
}

/// The places of the module for `q.a`; nothing is refused.
pub fn module(q: &Question) -> Vec<usize> {
    assert!(ask_module(q, &filled(128)).is_ok(), "{}", show(q));
    reasons::module(q)
}

/// The places of the printed set, tried by verdicts, if the goal follows; nothing else is refused.
pub fn set(q: &Question) -> Option<Vec<usize>> {
    match ask_set(q, &filled(128)) {
        Err(NOT_FOLLOWS) => return None,
        back => assert!(back.is_ok(), "{back:?}\n{}", show(q)),
    }
    let set = places(&calls::printed_set(q, &filled(128)).1);
    minimal(q, &set);
    Some(set)
}

/// The goal follows from the set, and not when any one of its records is taken out.
pub fn minimal(q: &Question, set: &[usize]) {
    assert_eq!(calls::verdict(&only(q, set)), FOLLOWS, "the set {set:?}\n{}", show(q));
    for place in set {
        let less: Vec<usize> = set.iter().copied().filter(|other| other != place).collect();
        assert_eq!(calls::verdict(&only(q, &less)), NOT, "{set:?} without {place}\n{}", show(q));
    }
}
