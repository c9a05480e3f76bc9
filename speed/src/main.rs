//! Measures the calls against Rust checkers, an engine and finders of reasons, in one run: a table, as
//! Markdown, and plots.

mod agree;
mod clock;
mod concepts;
mod engine;
mod fast;
mod inputs;
mod ours;
mod pairs;
mod plot;
mod progress;
mod reasons;
mod table;

use clock::{least, Least, Trial};
use concepts::Columns;
use engine::Engine;
use inputs::{Inputs, OUT, ROOM};
use noolukask_tests::packs::places;
use noolukask_tests::rng::Rng;
use noolukask_tests::rules::Question;
use noolukask_tests::runs;
use pairs::Pair;
use progress::Progress;
use reasons::Pick;
use std::path::Path;
use std::slice::from_ref;
use table::{thousands, Table};

const TWICE: Option<f64> = Some(2.0);
const HALF_MORE: Option<f64> = Some(1.5);

const NATIVE: &str = "Least processor time on x86-64.";
const EMULATED: &str = "EMULATED: both ran under one emulator of x86-64; no times of this machine.";
const METHOD: &str = "\
The last column has the turns and, where a turn is of several calls, how many. Buffers are warm and not cleared
between calls. n = 64 and m = 8 where a row says nothing else. A ratio in bold is above what is wanted.";

/// Before the second table.
const FASTER: &str = "\
The same calls against Rust by faster methods: a column of bits for each concept beside the rows, by which kinds 1 and
2 are one word for all X; a no check that passes over a thing to which a chain can add nothing; records read once for
the module; sets by halving over that engine.";

/// What is measured against a faster method, for the second table.
struct Faster {
    what: String,
    least: Least,
}

struct Bench {
    table: Table,
    progress: Progress,
    faster: Vec<Faster>,
}

impl Bench {
    /// A row of the table; what both calls returned.
    fn row(&mut self, wanted: Option<f64>, trial: Trial) -> u64 {
        let least = least(&trial, &mut self.progress);
        self.table.row(trial.what, &least, wanted);
        least.back
    }

    /// A row of the second table.
    fn faster(&mut self, trial: Trial) {
        let least = least(&trial, &mut self.progress);
        self.faster.push(Faster { what: trial.what.into(), least });
    }

    /// A check that accepts.
    fn check(&mut self, what: &str, pair: Pair, (question, sheet): &(Question, Vec<u8>)) {
        let back = self.row(TWICE, Trial { what, pair, questions: from_ref(question), buffer: sheet });
        assert_eq!(back, 0, "{what}");
    }

    /// Against Rust by rows of concepts, as ours has them, and by columns.
    fn passes(&mut self, what: &str, wanted: Option<f64>, [rows, columns]: [Pair; 2], q: &Question, room: usize) {
        let (questions, buffer) = (from_ref(q), &vec![0; room]);
        self.row(wanted, Trial { what, pair: rows, questions, buffer });
        self.faster(Trial { what, pair: columns, questions, buffer });
    }

    fn verdict(&mut self, what: &str, wanted: Option<f64>, q: &Question) {
        let what = format!("verdict, {what}{}", run(q));
        self.passes(&what, wanted, [pairs::VERDICT_BY_ROWS, pairs::VERDICT], q, 0);
    }

    fn sheet(&mut self, what: &str, q: &Question) {
        let what = format!("our {what}{}", run(q));
        self.passes(&what, TWICE, [pairs::SHEET_BY_ROWS, pairs::SHEET], q, ROOM);
    }

    /// A call that gives reasons; how many records it finds stands in the row.
    fn reasons(&mut self, what: &str, wanted: Option<f64>, pair: Pair, q: &Question) {
        let what = &with_count(what, pair, q);
        self.row(wanted, Trial { what, pair, questions: from_ref(q), buffer: &[0; OUT] });
    }

    fn faster_reasons(&mut self, what: &str, pair: Pair, q: &Question) {
        let what = &with_count(what, pair, q);
        self.faster(Trial { what, pair, questions: from_ref(q), buffer: &[0; OUT] });
    }

    /// How many completions a printed set takes by halving, and how many are wanted at most.
    fn completions(&mut self, what: &str, q: &Question) {
        let (kept, asked) = reasons::counted(q, reasons::by_halving);
        let log = u64::from(63 - (places(&q.marks).len() as u64).leading_zeros());
        let most = (kept + 1) * (log + 2);
        let wanted = format!("({kept} + 1) · ({log} + 2) = {most}");
        self.table.line(&format!("Completions of a set by halving, {what}: {asked}; wanted: at most {wanted}."));
    }
}

/// The name of a row with the number of records that the call finds.
fn with_count(what: &str, pair: Pair, q: &Question) -> String {
    let found = (pair.ours)(q, &mut [0; OUT]) / 256;
    what.replace('#', &thousands(found))
}

/// Passes and facts of the Rust engine, up to the goal or to the end.
fn run(q: &Question) -> String {
    let (_, marks) = fast::question(q).expect("a good question");
    let run = Engine::<Columns>::settle::<false>(q, &marks);
    let passes = if run.passes == 1 { "1 pass".into() } else { format!("{} passes", thousands(run.passes as u64)) };
    format!(": {passes}, {} facts", thousands(run.facts() as u64))
}

fn measure_checks(bench: &mut Bench, inputs: &Inputs) {
    let what = "pack check, 1,024 records";
    let back = bench.row(None, Trial { what, pair: pairs::PACK, questions: &inputs.mixed, buffer: &[] });
    assert_eq!(back, 256 * 1024, "{what}");
    bench.check("yes check, 36,000 steps", pairs::YES, &inputs.yes);
    for (links, input) in [("half the links", &inputs.staircase), ("all links", &inputs.full)] {
        let what = &format!("no check, 64 things, 400 chains, {links}");
        bench.check(what, pairs::NO_WALKED, input);
        bench.faster(Trial { what, pair: pairs::NO, questions: from_ref(&input.0), buffer: &input.1 });
    }
}

fn measure_engines(bench: &mut Bench, inputs: &Inputs) {
    bench.verdict("1,024 mixed records", HALF_MORE, &inputs.open);
    bench.verdict("1,024 mixed records but for the chains", None, &inputs::without_chains(&inputs.open));
    bench.verdict("1,024 mixed records, a fifth of kind 7", None, &inputs.self_linked);
    bench.verdict("400 chains on full tables", HALF_MORE, &inputs.chains);
    bench.verdict("63 records in reverse (m = 0)", None, &inputs::reverse_to_the_end(64));
    bench.verdict("counters", None, &runs::counters(64, 8));
    bench.sheet("yes sheet, the longest", &runs::fullest());
    bench.sheet("no sheet, 1,024 mixed records", &inputs.open_sheet);
}

fn measure_reasons(bench: &mut Bench, inputs: &Inputs) {
    let reverse = runs::reverse(64);
    for (records, q) in [("1,024 mixed records", &inputs.staged), ("63 records in reverse (m = 0)", &reverse)] {
        let module = format!("module, {records}, # in it");
        bench.reasons(&module, HALF_MORE, pairs::MODULE_BY_PASSES, q);
        bench.faster_reasons(&module, pairs::MODULE, q);
    }
    let mixed = "printed set, 1,024 mixed records, # kept";
    let snomed = "printed set, 120 SNOMED-like records (n = 62, m = 3), # kept";
    bench.reasons(&format!("{mixed}, against deletion"), None, pairs::SET_BY_DELETION, &inputs.staged);
    let ours = format!("{mixed}, against deletion by our verdict");
    bench.reasons(&ours, Some(0.5), pairs::SET_BY_VERDICTS, &inputs.staged);
    bench.reasons(&format!("{snomed}, against deletion"), HALF_MORE, pairs::SET_BY_DELETION, &inputs.snomed);
    bench.faster_reasons(mixed, pairs::SET, &inputs.staged);
    bench.faster_reasons(snomed, pairs::SET, &inputs.snomed);
}

/// The second table.
fn print_faster(bench: &mut Bench) {
    bench.table.line("");
    bench.table.line(FASTER);
    bench.table.head();
    for Faster { what, least } in std::mem::take(&mut bench.faster) {
        bench.table.row(&what, &least, None);
    }
}

/// Verdicts on these questions, by x: a line for each of us, in microseconds.
fn verdict_lines(bench: &mut Bench, questions: impl Iterator<Item = (usize, Question)>) -> Vec<plot::Series> {
    let mut lines = ["ours", "Rust by columns", "Rust by rows"].map(|name| plot::Series { name, points: Vec::new() });
    for (x, question) in questions {
        let what = format!("plotting verdicts, {x}");
        let mut time = |pair| {
            let trial = Trial { what: &what, pair, questions: from_ref(&question), buffer: &[] };
            least(&trial, &mut bench.progress)
        };
        let (columns, rows) = (time(pairs::VERDICT), time(pairs::VERDICT_BY_ROWS));
        for (line, time) in lines.iter_mut().zip([columns.ours.min(rows.ours), columns.rust, rows.rust]) {
            line.points.push((x as f64, time / 1e3));
        }
    }
    lines.into()
}

/// How often it is asked for a printed set whether the goal follows, by the number of records.
fn completion_lines(bench: &mut Bench, rng: &mut Rng) -> Vec<plot::Series> {
    let mut lines = ["by halving", "by deletion"].map(|name| plot::Series { name, points: Vec::new() });
    for count in [128, 256, 512, 1024] {
        bench.progress.begin(&format!("plotting completions, {count} records"));
        let question = inputs::staged_pack(rng, count);
        for (line, pick) in lines.iter_mut().zip([reasons::by_halving as Pick, reasons::by_deletion]) {
            line.points.push((count as f64, reasons::counted(&question, pick).1 as f64));
        }
    }
    lines.into()
}

/// Where numbers say less than a plot: cost against records and against passes, completions against records.
fn plots(bench: &mut Bench, rng: &mut Rng) -> Vec<plot::Panel> {
    let mixed = [64, 128, 256, 512, 1024].into_iter().map(|count| (count, inputs::open_pack(rng, count)));
    let by_records = verdict_lines(bench, mixed);
    let reverse = [8, 16, 32, 64].into_iter().map(|n| (usize::from(n), inputs::reverse_to_the_end(n)));
    let by_passes = verdict_lines(bench, reverse);
    let completions = completion_lines(bench, rng);
    let panel = |title, x, y, series| plot::Panel { title, x, y, series };
    vec![
        panel("Verdict, mixed records, to the end", "records", "microseconds", by_records),
        panel("Verdict, records in reverse", "passes", "microseconds", by_passes),
        panel("Printed set, about 30 kept", "records", "completions", completions),
    ]
}

fn main() {
    // The words after the program: "emulated" or "native", and the folder for the table and the plots.
    let mut words = std::env::args().skip(1);
    let emulated = words.next().expect("emulated or native") == "emulated";
    let folder = words.next().expect("a folder");
    let folder = Path::new(&folder);
    let mut bench = Bench { table: Table::new(emulated), progress: Progress::new(), faster: Vec::new() };
    agree::assert_alike(&mut Rng::new(1), &mut bench.progress);
    let mut rng = Rng::new(36);
    let inputs = Inputs::drawn(&mut rng);
    bench.table.line(if emulated { EMULATED } else { NATIVE });
    bench.table.line(METHOD);
    bench.table.head();
    measure_checks(&mut bench, &inputs);
    measure_engines(&mut bench, &inputs);
    measure_reasons(&mut bench, &inputs);
    bench.table.line("");
    bench.completions("1,024 mixed records", &inputs.staged);
    bench.completions("120 SNOMED-like records", &inputs.snomed);
    print_faster(&mut bench);
    std::fs::write(folder.join("speed.md"), bench.table.text()).expect("the table can be written");
    let drawn = plot::svg(if emulated { EMULATED } else { NATIVE }, &plots(&mut bench, &mut rng));
    bench.progress.clear();
    std::fs::write(folder.join("speed.svg"), drawn).expect("the plots can be written");
    println!("\nWritten: speed.md and speed.svg, into {}.", folder.display());
}
