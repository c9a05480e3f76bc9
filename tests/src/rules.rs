//! Document 01's rules of packs, marks and goals, with document 02's kind 7, and the table of what comes back.

/// What is handed to a call besides a sheet.
#[derive(Clone)]
pub struct Question {
    pub n: u64,
    pub m: u64,
    pub pack: Vec<u8>,
    pub marks: Vec<u8>,
    pub a: u64,
    pub b: u64,
}

/// The whole question in words, for a test that fails.
pub fn show(q: &Question) -> String {
    format!("n {} m {} goal ({},{})\npack {:02x?}\nmarks {:02x?}", q.n, q.m, q.a, q.b, q.pack, q.marks)
}

/// A number of the table, and the place, step, row or bytes that it gives (0 where it gives none).
#[derive(Clone, Copy, PartialEq, Eq, Debug)]
pub struct Refused {
    pub number: u64,
    pub place: u64,
}

pub const SIZES: Refused = Refused { number: 1, place: 0 };
pub const PACK: Refused = Refused { number: 2, place: 0 };
pub const MARKS: Refused = Refused { number: 4, place: 0 };
pub const GOAL: Refused = Refused { number: 5, place: 0 };
pub const NOT_FOLLOWS: Refused = Refused { number: 7, place: 0 };
pub const LENGTH: Refused = Refused { number: 9, place: 0 };
pub const NOT_SHOWN: Refused = Refused { number: 13, place: 0 };

pub fn record_at(place: usize) -> Refused {
    Refused { number: 3, place: place as u64 }
}
pub fn no_room(bytes: usize) -> Refused {
    Refused { number: 8, place: bytes as u64 }
}
pub fn step_at(step: usize) -> Refused {
    Refused { number: 10, place: step as u64 }
}
pub fn row_at(row: usize) -> Refused {
    Refused { number: 11, place: row as u64 }
}
pub fn broken_at(place: usize) -> Refused {
    Refused { number: 12, place: place as u64 }
}

/// A checked sheet is accepted.
pub const ACCEPTED: Result<(), Refused> = Ok(());

/// The number of the table, 0 where nothing is refused.
pub fn number<T>(result: Result<T, Refused>) -> usize {
    result.map_or_else(|refused| refused.number as usize, |_| 0)
}

/// What the two sheet calls return: 0, or the number plus 16 times the place.
pub fn sheet_code(result: Result<(), Refused>) -> u64 {
    match result {
        Ok(()) => 0,
        Err(refused) => refused.number + 16 * refused.place,
    }
}

/// What the other calls return: the number in the low byte, the value above it.
pub fn desk_code(result: Result<u64, Refused>) -> u64 {
    match result {
        Ok(value) => 256 * value,
        Err(refused) => refused.number + 256 * refused.place,
    }
}

/// A sheet call's answer from what it returned.
pub fn sheet_answer(back: u64) -> Result<(), Refused> {
    match back {
        0 => Ok(()),
        _ => Err(Refused { number: back % 16, place: back / 16 }),
    }
}

/// Another call's answer from what it returned: the value, or the refusal.
pub fn desk_answer(back: u64) -> Result<u64, Refused> {
    match back % 256 {
        0 => Ok(back / 256),
        number => Err(Refused { number, place: back / 256 }),
    }
}

/// "x in b" is `In(x, b)` and "x r y" is `Link(x, r, y)`, over concept numbers.
#[derive(Clone, Copy, PartialEq, Eq, PartialOrd, Ord, Debug)]
pub enum Fact {
    In(u8, u8),
    Link(u8, u8, u8),
}

/// The first four bytes of a record; the statement number is not read.
#[derive(Clone, Copy)]
pub struct Record {
    pub kind: u8,
    pub a: u8,
    pub b: u8,
    pub c: u8,
}

pub fn record(pack: &[u8], place: usize) -> Record {
    let bytes = &pack[8 * place..8 * place + 8];
    Record { kind: bytes[0], a: bytes[1], b: bytes[2], c: bytes[3] }
}

pub fn record_good(n: u64, m: u64, record: Record) -> bool {
    let concept = |number: u8| u64::from(number) < n;
    let role = |number: u8| u64::from(number) < m;
    let Record { kind, a, b, c } = record;
    match kind {
        1 => concept(a) && concept(b) && c == 0,
        2 => concept(a) && concept(b) && concept(c),
        3 => concept(a) && role(b) && concept(c),
        4 => role(a) && concept(b) && concept(c),
        5 => role(a) && role(b) && c == 0,
        6 => role(a) && role(b) && role(c),
        7 => role(a) && b == 0 && c == 0,
        _ => false,
    }
}

/// Numbers 1 to 3, or the record count.
pub fn check_pack(n: u64, m: u64, pack: &[u8]) -> Result<u64, Refused> {
    if !(1..=64).contains(&n) || m > 8 {
        return Err(SIZES);
    }
    if pack.len() % 8 != 0 || pack.len() > 8192 {
        return Err(PACK);
    }
    let count = pack.len() / 8;
    for place in 0..count {
        if !record_good(n, m, record(pack, place)) {
            return Err(record_at(place));
        }
    }
    Ok(count as u64)
}

/// Numbers 1 to 5, or the record count.
pub fn check_question(q: &Question) -> Result<u64, Refused> {
    let count = check_pack(q.n, q.m, &q.pack)?;
    if q.marks.len() != 128 || (count as usize..1024).any(|place| marked(&q.marks, place)) {
        return Err(MARKS);
    }
    if q.a >= q.n || q.b >= q.n {
        return Err(GOAL);
    }
    Ok(count)
}

/// Bit i mod 64 of word i div 64; the 16 words lie little-endian in 128 bytes.
pub fn marked(marks: &[u8], place: usize) -> bool {
    if place >= 1024 {
        return false;
    }
    let at = 8 * (place / 64);
    let word = u64::from_le_bytes(marks[at..at + 8].try_into().expect("8 bytes"));
    word >> (place % 64) & 1 == 1
}

#[cfg(test)]
mod tests {
    use super::*;
    use crate::packs;

    #[test]
    fn the_valve_pack_has_six_records() {
        let q = packs::valve(0, 1);
        assert_eq!(check_pack(q.n, q.m, &q.pack), Ok(6));
        assert_eq!(check_question(&q), Ok(6));
    }

    #[test]
    fn the_lowest_number_is_given() {
        let mut q = packs::valve(5, 1);
        assert_eq!(check_question(&q), Err(GOAL));
        q.marks[0] = 0x40;
        assert_eq!(check_question(&q), Err(MARKS));
        q.pack[8] = 8;
        q.pack[24] = 0;
        assert_eq!(check_question(&q), Err(record_at(1)));
        q.pack.pop();
        assert_eq!(check_question(&q), Err(PACK));
        q.m = 9;
        assert_eq!(check_question(&q), Err(SIZES));
    }

    #[test]
    fn kind_7_has_a_role_and_zeros() {
        let good = |[kind, a, b, c]: [u8; 4]| record_good(5, 2, Record { kind, a, b, c });
        assert!(good([7, 0, 0, 0]) && good([7, 1, 0, 0]));
        assert!(![[7, 2, 0, 0], [7, 255, 0, 0], [7, 0, 1, 0], [7, 0, 0, 1], [8, 0, 0, 0]].into_iter().any(good));
    }

    #[test]
    fn marks_are_little_endian_words() {
        let mut marks = [0u8; 128];
        marks[127] = 0x80;
        marks[8] = 0x02;
        let set: Vec<usize> = (0..2000).filter(|&place| marked(&marks, place)).collect();
        assert_eq!(set, [65, 1023]);
    }

    #[test]
    fn the_two_ways_to_return_a_number() {
        assert_eq!(sheet_code(Ok(())), 0);
        assert_eq!(sheet_code(Err(step_at(3))), 10 + 48);
        assert_eq!(desk_code(Ok(6)), 0x600);
        assert_eq!(desk_code(Err(record_at(1))), 0x103);
        // And back.
        assert_eq!([sheet_answer(0), sheet_answer(10 + 48)], [Ok(()), Err(step_at(3))]);
        assert_eq!([desk_answer(0x600), desk_answer(0x103)], [Ok(6), Err(record_at(1))]);
    }
}
