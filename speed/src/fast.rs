//! The Rust checkers that the calls are measured against, written for speed from documents 01 and 02:
//! bit rows of u64, nothing allocated, one look at each step or row.

use noolukask_tests::rules::Question;

/// Marks as words.
pub type MarkWords = [u64; 16];

pub fn bit(row: u64, index: usize) -> bool {
    row >> (index & 63) & 1 == 1
}

/// The bits below `end`, which is 1 to 64.
pub fn low_bits(end: usize) -> u64 {
    u64::MAX >> (64 - end)
}

/// Calls `each` with the set bits of a row, ascending.
pub fn each_bit(mut row: u64, mut each: impl FnMut(usize)) {
    while row != 0 {
        each(row.trailing_zeros() as usize);
        row &= row - 1;
    }
}

/// Whether some set bit of a row passes the test. Four bits a round: where the loop comes to lie costs less.
fn some_bit(mut row: u64, mut test: impl FnMut(usize) -> bool) -> bool {
    loop {
        for _ in 0..4 {
            if row == 0 {
                return false;
            }
            if test(row.trailing_zeros() as usize) {
                return true;
            }
            row &= row - 1;
        }
    }
}

/// The first marked place that passes the test.
pub fn first_marked(marks: &MarkWords, mut test: impl FnMut(usize) -> bool) -> Option<usize> {
    for (i, &marked) in marks.iter().enumerate() {
        let mut left = marked;
        while left != 0 {
            let place = 64 * i + left.trailing_zeros() as usize;
            if test(place) {
                return Some(place);
            }
            left &= left - 1;
        }
    }
    None
}

fn word(bytes: &[u8], index: usize) -> u64 {
    u64::from_le_bytes(bytes[8 * index..8 * index + 8].try_into().expect("8 bytes"))
}

/// Kind, a, b, c of a record.
pub fn fields(pack: &[u8], place: usize) -> [usize; 4] {
    let record = word(pack, place);
    [0, 8, 16, 24].map(|shift| (record >> shift & 255) as usize)
}

/// Low byte: the table's number; above it the record count or the bad place.
pub fn check_pack(n: u64, m: u64, pack: &[u8]) -> u64 {
    if n.wrapping_sub(1) >= 64 || m > 8 {
        return 1;
    }
    if pack.len() % 8 != 0 || pack.len() > 8192 {
        return 2;
    }
    let (n, m) = (n as usize, m as usize);
    // What a, b and c are below, by kind: no branch hangs on the kind. No kind is 0 or above 7.
    let below = [[0; 3], [n, n, 1], [n, n, n], [n, m, n], [m, n, n], [m, m, 1], [m, m, m], [m, 1, 1], [0; 3]];
    for place in 0..pack.len() / 8 {
        let [kind, a, b, c] = fields(pack, place);
        let [below_a, below_b, below_c] = below[kind.min(8)];
        if (a >= below_a) | (b >= below_b) | (c >= below_c) {
            return 3 + 256 * place as u64;
        }
    }
    256 * (pack.len() / 8) as u64
}

/// The record count and the mark words, or what a sheet check returns for numbers 1 to 4.
pub fn marked(q: &Question) -> Result<(usize, MarkWords), u64> {
    let back = check_pack(q.n, q.m, &q.pack);
    match back & 255 {
        0 => (),
        number => return Err(number + 16 * (back >> 8)),
    }
    let count = (back >> 8) as usize;
    if q.marks.len() != 128 {
        return Err(4);
    }
    let marks: MarkWords = std::array::from_fn(|i| word(&q.marks, i));
    for (i, &marked) in marks.iter().enumerate() {
        let records = count.saturating_sub(64 * i);
        if records < 64 && marked >> records != 0 {
            return Err(4);
        }
    }
    Ok((count, marks))
}

/// The same for numbers 1 to 5.
pub fn question(q: &Question) -> Result<(usize, MarkWords), u64> {
    let found = marked(q)?;
    if q.a >= q.n || q.b >= q.n {
        return Err(5);
    }
    Ok(found)
}

/// What the other calls return where a sheet check returns this.
pub fn desk_code(back: u64) -> u64 {
    back % 16 + 256 * (back / 16)
}

/// Facts are numbered, "X in B" as 64 X + B and "X r Y" as 4,096 (1 + r) + 64 X + Y. So the number of a rule's
/// premise or conclusion is a base, and X, Y and Z so many times.
#[derive(Clone, Copy)]
struct Numbered {
    base: u16,
    x: u16,
    y: u16,
    z: u16,
}

impl Numbered {
    fn at(self, [x, y, z]: [u16; 3]) -> usize {
        let [x, y, z] = [self.x.wrapping_mul(x), self.y.wrapping_mul(y), self.z.wrapping_mul(z)];
        usize::from(self.base.wrapping_add(x).wrapping_add(y).wrapping_add(z))
    }
}

/// A record as the yes check reads it: one shape for all kinds, so that no branch hangs on the kind.
#[derive(Clone, Copy)]
struct Rule {
    premises: [Numbered; 2],
    conclusion: Numbered,
    /// The bits of a step that are zero.
    zero: u64,
}

fn rule(fields: [usize; 4]) -> Rule {
    let [kind, a, b, c] = fields.map(|field| field as u16);
    let numbered = |base: u16, x: u16, y: u16, z: u16| Numbered { base, x, y, z };
    let role = |role: u16| role.wrapping_add(1).wrapping_mul(4096);
    let (x_in, y_in) = (|b| numbered(b, 64, 0, 0), |b| numbered(b, 0, 64, 0));
    let (x_to_y, y_to_z) = (|r| numbered(role(r), 64, 1, 0), |r| numbered(role(r), 0, 64, 1));
    let (no_z, no_y_z) = (0xFF << 32, 0xFFFF << 24);
    let (premises, conclusion, zero) = match kind {
        1 => ([x_in(a), x_in(a)], x_in(b), no_y_z),
        2 => ([x_in(a), x_in(b)], x_in(c), no_y_z),
        3 => ([x_in(a), x_in(a)], numbered(role(b).wrapping_add(c), 64, 0, 0), no_y_z),
        4 => ([x_to_y(a), y_in(b)], x_in(c), no_z),
        5 => ([x_to_y(a), x_to_y(a)], x_to_y(b), no_z),
        6 => ([x_to_y(a), y_to_z(b)], numbered(role(c), 64, 0, 1), 0),
        // It has no premise: "0 in 0" is free.
        _ => ([numbered(0, 0, 0, 0); 2], numbered(role(a), 65, 0, 0), no_y_z),
    };
    Rule { premises, conclusion, zero: zero | u64::MAX << 40 }
}

pub fn check_yes(q: &Question, sheet: &[u8]) -> u64 {
    let (count, marks) = match question(q) {
        Ok(found) => found,
        Err(back) => return back,
    };
    if sheet.len() % 8 != 0 || sheet.len() > 524_288 {
        return 9;
    }
    let n = q.n as u16;
    let mut rules = [rule([1, 0, 0, 0]); 1024];
    (0..count).for_each(|place| rules[place] = rule(fields(&q.pack, place)));
    // A bit for each number of a fact.
    let mut held = [0u64; 1024];
    (0..64).for_each(|x| held[x] = 1 << x);
    let holds = |held: &[u64; 1024], fact: usize| bit(held[(fact / 64) & 1023], fact);
    for i in 0..sheet.len() / 8 {
        let step = word(sheet, i);
        let place = (step & 0xFFFF) as usize;
        if place >= count || !bit(marks[place / 64], place) {
            return 10 + 16 * i as u64;
        }
        let rule = &rules[place];
        let xyz = [16, 24, 32].map(|shift| (step >> shift & 255) as u16);
        let small = (xyz[0] < n) & (xyz[1] < n) & (xyz[2] < n);
        let hold = holds(&held, rule.premises[0].at(xyz)) & holds(&held, rule.premises[1].at(xyz));
        if !(small & hold & (step & rule.zero == 0)) {
            return 10 + 16 * i as u64;
        }
        let fact = rule.conclusion.at(xyz);
        held[(fact / 64) & 1023] |= 1 << (fact % 64);
    }
    if bit(held[q.a as usize], q.b as usize) { 0 } else { 13 }
}

/// Whether some thing x has a y by r, and y a z by s, that x has not by t. With `PASS_OVER` none is sought for an
/// x that lacks no end of s.
fn breaks_chain<const PASS_OVER: bool>(k: usize, r: &[u64; 64], s: &[u64; 64], t: &[u64; 64]) -> bool {
    let ends = if PASS_OVER { s.iter().fold(0, |ends, row| ends | row) } else { u64::MAX };
    (0..k).any(|x| {
        let lacking = ends & !t[x];
        (!PASS_OVER || lacking != 0) && some_bit(r[x], |y| s[y] & lacking != 0)
    })
}

/// `PASS_OVER` as above.
pub fn check_no<const PASS_OVER: bool>(q: &Question, sheet: &[u8]) -> u64 {
    let (_, marks) = match question(q) {
        Ok(found) => found,
        Err(back) => return back,
    };
    let (n, m) = (q.n as usize, q.m as usize);
    let k = sheet.len() / (8 * (1 + m));
    if sheet.len() != 8 * k * (1 + m) || !(1..=64).contains(&k) {
        return 9;
    }
    // Links as rows; concepts turned to columns: bit x of column j says that thing x is in j.
    let mut columns = [0u64; 64];
    let mut links = [[0u64; 64]; 8];
    for i in 0..k * (1 + m) {
        let row = word(sheet, i);
        if row & !low_bits(if i < k { n } else { k }) != 0 {
            return 11 + 16 * i as u64;
        }
        if i < k {
            each_bit(row, |concept| columns[concept] |= 1 << i);
        } else {
            links[i / k - 1][i % k] = row;
        }
    }
    let breaks = |[kind, a, b, c]: [usize; 4]| match kind {
        1 => columns[a] & !columns[b] != 0,
        2 => columns[a] & columns[b] & !columns[c] != 0,
        3 => some_bit(columns[a], |x| links[b][x] & columns[c] == 0),
        4 => some_bit(low_bits(k) & !columns[c], |x| links[a][x] & columns[b] != 0),
        5 => (0..k).any(|x| links[a][x] & !links[b][x] != 0),
        6 => breaks_chain::<PASS_OVER>(k, &links[a], &links[b], &links[c]),
        _ => (0..k).fold(0, |selves, x| selves | links[a][x] & 1 << x) != low_bits(k),
    };
    if let Some(place) = first_marked(&marks, |place| breaks(fields(&q.pack, place))) {
        return 12 + 16 * place as u64;
    }
    if columns[q.a as usize] & !columns[q.b as usize] != 0 { 0 } else { 13 }
}
