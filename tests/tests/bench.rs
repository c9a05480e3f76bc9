//! The bench program, run as a process with the pack and the question record on standard input. What it prints
//! is compared with document 01's own lines and with those that the independent side gives.

use noolukask_tests::packs::{self, marks, pack, Shape, KIND_7, VALVE};
use noolukask_tests::rng::Rng;
use noolukask_tests::rules::{check_question, Question, Refused, PACK, SIZES};
use noolukask_tests::{chains, damage, reasoner, reasons, runs};
use std::io::Write;
use std::process::{Command, Stdio};
use std::time::Duration;

const PROGRAM: &str = concat!(env!("CARGO_MANIFEST_DIR"), "/../crates/bench/out/bench");

/// Names the emulator, where these tests are run by one; `tools/platform` sets it.
const RUNNER: &str = "CARGO_TARGET_X86_64_UNKNOWN_LINUX_GNU_RUNNER";

/// What the program prints when its standard input comes in these pieces.
fn run_on(pieces: &[&[u8]]) -> String {
    assert!(std::path::Path::new(PROGRAM).exists(), "no {PROGRAM}: `make crates/bench/out/bench` writes it, and `rt ci` too");
    let runner = std::env::var(RUNNER).unwrap_or_default();
    let words: Vec<&str> = runner.split_whitespace().chain([PROGRAM]).collect();
    let mut command = Command::new(words[0]);
    command.args(&words[1..]).stdin(Stdio::piped()).stdout(Stdio::piped()).stderr(Stdio::piped());
    let mut program = command.spawn().expect("the program starts");
    let mut input = program.stdin.take().expect("its standard input");
    for (i, piece) in pieces.iter().enumerate() {
        if i > 0 {
            std::thread::sleep(Duration::from_millis(30));
        }
        // A program that has read enough may close its input.
        let _ = input.write_all(piece);
    }
    drop(input);
    let output = program.wait_with_output().expect("the program ends");
    // A refusal is an answer too.
    assert_eq!(output.status.code(), Some(0), "{}", output.status);
    assert!(output.stderr.is_empty(), "{}", String::from_utf8_lossy(&output.stderr));
    String::from_utf8(output.stdout).expect("text")
}

/// The lines that document 01 asks for, with the set by deletion.
fn lines(input: &[u8]) -> String {
    lines_with(input, |q| reasons::printed(q).expect("the goal follows"))
}

/// The same, with the set of a goal that follows given: for packs that are too long to delete from here.
fn lines_with(input: &[u8], set: impl Fn(&Question) -> Vec<usize>) -> String {
    match answer(input, set) {
        Ok(lines) => lines,
        Err(Refused { number: 3, place }) => format!("refused 3 {place}\n"),
        Err(Refused { number, .. }) => format!("refused {number}\n"),
    }
}

/// In this order: over 8,200 bytes; no question record at the end; the calls' own numbers.
fn answer(input: &[u8], set: impl Fn(&Question) -> Vec<usize>) -> Result<String, Refused> {
    if input.len() > 8200 {
        return Err(PACK);
    }
    let (pack, last) = input.split_at(input.len().checked_sub(8).ok_or(SIZES)?);
    let [n, m, a, b] = match *last {
        [0, n, m, a, b, 0, 0, 0] => [n, m, a, b].map(u64::from),
        _ => return Err(SIZES),
    };
    let q = Question { n, m, pack: pack.to_vec(), marks: marks(0..pack.len() / 8), a, b };
    check_question(&q)?;
    let found = reasoner::passes(&q).answer(a, b);
    let verdict = if found.follows { "follows" } else { "not" };
    let mut lines = format!("{verdict} {}\n{}", found.count, list("module", &reasons::module(&q)));
    if found.follows {
        lines += &list("set", &set(&q));
    }
    Ok(lines)
}

fn list(what: &str, places: &[usize]) -> String {
    let places: String = places.iter().map(|place| format!(" {place}")).collect();
    format!("{what} {}:{places}\n", places.split_whitespace().count())
}

/// The standard input for a pack and the numbers of a question.
fn input(pack: &[u8], [n, m, a, b]: [u8; 4]) -> Vec<u8> {
    [pack, &[0, n, m, a, b, 0, 0, 0]].concat()
}

/// What the program prints on this input, compared.
fn bench(input: &[u8]) -> String {
    let printed = run_on(&[input]);
    assert_eq!(printed, lines(input), "{input:02x?}");
    printed
}

/// The same for a question, every record marked.
fn bench_question(q: &Question) -> String {
    bench(&input(&q.pack, [q.n, q.m, q.a, q.b].map(|number| number as u8)))
}

fn valve(a: u8, b: u8) -> String {
    bench(&input(&pack(&VALVE), [5, 2, a, b]))
}

#[test]
fn the_valve_pack() {
    assert_eq!(valve(0, 1), "follows 4\nmodule 6: 0 1 2 3 4 5\nset 2: 4 5\n");
    assert_eq!(valve(2, 1), "not 15\nmodule 1: 1\n");
    // An empty list ends at its colon.
    assert_eq!(valve(3, 1), "not 15\nmodule 0:\n");
    assert_eq!(valve(4, 4), "follows 0\nmodule 1: 5\nset 0:\n");
    assert_eq!(valve(1, 1), "follows 0\nmodule 0:\nset 0:\n");
}

#[test]
fn document_01s_cases_with_everything_marked() {
    let of = |sizes: [u8; 4], records: &[[u8; 4]]| bench(&input(&pack(records), sizes));
    assert_eq!(of([1, 0, 0, 0], &[]), "follows 0\nmodule 0:\nset 0:\n");
    assert_eq!(of([2, 0, 0, 1], &[]), "not 2\nmodule 0:\n");
    assert_eq!(of([2, 0, 0, 1], &[[1, 0, 1, 0], [1, 0, 1, 0]]), "follows 1\nmodule 2: 0 1\nset 1: 1\n");
    assert_eq!(of([2, 0, 0, 1], &[[2, 0, 0, 1]]), "follows 1\nmodule 1: 0\nset 1: 0\n");
    assert_eq!(of([3, 0, 0, 2], &[[1, 1, 2, 0], [1, 0, 1, 0]]), "follows 3\nmodule 2: 0 1\nset 2: 0 1\n");
    // C4, C5 and C10 without the records that are not marked there.
    let [site, part, chain, procedure, _, repair] = VALVE;
    let c4 = [site, part, chain, procedure, repair];
    assert_eq!(of([5, 2, 0, 1], &c4), "follows 4\nmodule 4: 0 1 2 3\nset 4: 0 1 2 3\n");
    assert_eq!(of([5, 2, 0, 1], &[site, part, procedure, repair]), "not 15\nmodule 3: 0 1 2\n");
    let c10 = [site, part, [6, 1, 0, 0], procedure, repair];
    assert_eq!(of([5, 2, 0, 1], &c10), "not 15\nmodule 4: 0 1 2 3\n");
}

#[test]
fn kind_7() {
    let of = |sizes: [u8; 4], records: &[[u8; 4]]| bench(&input(&pack(records), sizes));
    let [itself, some] = KIND_7;
    assert_eq!(of([2, 1, 0, 1], &[itself, some]), "follows 3\nmodule 2: 0 1\nset 2: 0 1\n");
    assert_eq!(of([2, 1, 0, 1], &[some, itself]), "follows 3\nmodule 2: 0 1\nset 2: 0 1\n");
    // Without the record of kind 7, and with it alone.
    assert_eq!(of([2, 1, 0, 1], &[some]), "not 4\nmodule 0:\n");
    assert_eq!(of([2, 1, 0, 1], &[itself]), "not 4\nmodule 1: 0\n");
    // It is in the module of every concept; the set of a free goal is empty.
    assert_eq!(of([2, 1, 1, 0], &[itself, some]), "not 4\nmodule 1: 0\n");
    assert_eq!(of([2, 1, 1, 1], &[itself, some]), "follows 0\nmodule 1: 0\nset 0:\n");
    // Of two alike records the second one; roles 0 and 1 are two.
    assert_eq!(of([2, 2, 0, 1], &[itself, itself, some]), "follows 3\nmodule 3: 0 1 2\nset 2: 1 2\n");
    assert_eq!(of([2, 2, 0, 1], &[[7, 1, 0, 0], some]), "not 6\nmodule 1: 0\n");
    for (q, expected) in damage::fields_of_kind_7() {
        if let Err(Refused { place, .. }) = expected {
            assert_eq!(bench_question(&q), format!("refused 3 {place}\n"));
        }
    }
}

#[test]
fn no_question_record() {
    let good = input(&pack(&VALVE), [5, 2, 0, 1]);
    for len in 0..8 {
        // Also the last bytes of a good question.
        assert_eq!(bench(&good[good.len() - len..]), "refused 1\n");
    }
    for byte in [0, 5, 6, 7] {
        let mut other = good.clone();
        other[48 + byte] = [1, 255][byte % 2];
        assert_eq!(bench(&other), "refused 1\n");
        // A length that is no multiple of 8 comes after it, and so does a bad record.
        assert_eq!(bench(&other[1..]), "refused 1\n");
        other[0] = 9;
        assert_eq!(bench(&other), "refused 1\n");
    }
    // Nothing but a pack.
    assert_eq!(bench(&good[..48]), "refused 1\n");
}

#[test]
fn sizes() {
    let empty = |n, m| bench(&input(&[], [n, m, 0, 0]));
    for (n, m) in [(0, 0), (65, 0), (255, 8), (1, 9), (64, 9), (64, 255)] {
        assert_eq!(empty(n, m), "refused 1\n");
    }
    for (n, m) in [(1, 0), (64, 0), (1, 8), (64, 8)] {
        assert_eq!(empty(n, m), "follows 0\nmodule 0:\nset 0:\n");
    }
    assert_eq!(bench(&input(&[], [64, 8, 63, 62])), "not 576\nmodule 0:\n");
    // Sizes before the pack's length, records and goal.
    assert_eq!(bench(&input(&[9; 7], [65, 0, 80, 80])), "refused 1\n");
    assert_eq!(bench(&input(&[9; 8], [5, 9, 80, 80])), "refused 1\n");
}

#[test]
fn lengths() {
    let of_length = |len: usize, sizes| input(&packs::filler(len), sizes);
    for len in [1, 7, 9, 8191] {
        assert_eq!(bench(&of_length(len, [64, 8, 0, 0])), "refused 2\n");
        // The length before the goal; the sizes before the length.
        assert_eq!(bench(&of_length(len, [64, 8, 64, 0])), "refused 2\n");
        assert_eq!(bench(&of_length(len, [0, 8, 0, 0])), "refused 1\n");
    }
    let longest = bench(&of_length(8192, [64, 8, 0, 1]));
    assert!(longest.starts_with("not 576\nmodule 1024: 0 1 2") && longest.ends_with(" 1022 1023\n"));
    // Over 8,200 bytes in all, whatever stands last.
    for len in [8193, 8199, 8200, 16_384, 100_000] {
        assert_eq!(bench(&of_length(len, [64, 8, 0, 0])), "refused 2\n");
        assert_eq!(bench(&of_length(len, [0, 99, 99, 99])), "refused 2\n");
    }
    assert_eq!(bench(&vec![7; 8201]), "refused 2\n");
    assert_eq!(bench(&vec![0; 9000]), "refused 2\n");
    assert_eq!(bench(&vec![0; 8200]), "refused 1\n");
}

#[test]
fn records_and_goals() {
    for place in [0, 1, 5] {
        let mut bad = input(&pack(&VALVE), [5, 2, 0, 1]);
        bad[8 * place] = 8;
        assert_eq!(bench(&bad), format!("refused 3 {place}\n"));
        // The lowest place, and records before the goal.
        bad[40] = 0;
        bad[51] = 200;
        assert_eq!(bench(&bad), format!("refused 3 {place}\n"));
    }
    let mut last = packs::longest();
    last.pack[8 * 1023 + 3] = 1;
    assert_eq!(bench_question(&last), "refused 3 1023\n");
    for (a, b) in [(5, 1), (0, 5), (5, 5), (255, 0), (0, 255)] {
        assert_eq!(valve(a, b), "refused 5\n");
    }
}

#[test]
fn long_lines() {
    // 1,024 records of which the last alone puts 0 under 1.
    let long = input(&packs::longest().pack, [64, 8, 0, 1]);
    assert_eq!(run_on(&[&long]), lines_with(&long, |_| vec![1023]));
    // 63 records that all are needed.
    let chain: String = (0..63).map(|place| format!(" {place}")).collect();
    let expected = format!("follows 2016\nmodule 63:{chain}\nset 63:{chain}\n");
    assert_eq!(run_on(&[&input(&runs::reverse(64).pack, [64, 0, 0, 63])]), expected);
    // Every fact there can be.
    let all: String = (0..638).map(|place| format!(" {place}")).collect();
    let expected = format!("follows 36800\nmodule 638:{all}\nset 2: 61 637\n");
    assert_eq!(run_on(&[&input(&runs::fullest().pack, [64, 8, 62, 63])]), expected);
}

#[test]
fn random_questions() {
    let mut rng = Rng::new(71);
    let mut follow = 0;
    for i in 0..70 {
        let mut q = match i % 7 {
            0 => packs::large_question(&mut rng, Shape::Few),
            1 => chains::fifth_of_kind_7(&mut rng),
            _ => chains::small_question(&mut rng, 50),
        };
        q.marks = marks(0..q.pack.len() / 8);
        follow += usize::from(bench_question(&q).starts_with("follows"));
    }
    println!("counts: bench on 70 random packs: {follow} goals follow");
    assert!((10..50).contains(&follow));
}

#[test]
fn input_that_comes_in_pieces() {
    let whole = input(&pack(&VALVE), [5, 2, 0, 1]);
    let pieces: Vec<&[u8]> = whole.chunks(19).collect();
    assert_eq!(run_on(&pieces), lines(&whole));
    let long = input(&packs::longest().pack, [64, 8, 0, 1]);
    let expected = lines_with(&long, |_| vec![1023]);
    assert_eq!(run_on(&[&long[..8000], &long[8000..8199], &long[8199..]]), expected);
    // One byte more, and it comes late.
    assert_eq!(run_on(&[&long, &[0]]), "refused 2\n");
    assert_eq!(run_on(&[]), "refused 1\n");
}
