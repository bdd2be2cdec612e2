//! How long the proved judge and the reference take over the same lines, in one run.

use std::process::ExitCode;
use std::time::{Duration, Instant};

use host::codes::COUNT_WITHOUT_POLISH;
use host::reference::{judge_line, Call, Lists, Moment, Outcome, Record, Register, Version, MOST_RECORDS};
use host::{sized_bench_day, BenchDay};

const USAGE: &str = "usage:
  bench pace                            lines per second of both sides, over registers of both versions, and noted
  bench growth                          time for a line as the lists and the register grow
  bench once ours|reference [1|2]       one round of one side, to count its instructions; version 1 where none is said
  bench once noting|reference_noting [few|60|256]
                                        the same for noting all lines, of the day's few executing entities, 60 or 256";

const SEED: u64 = 1;
const ROUNDS: usize = 5;

/// The lines of the comparison, and of each size where the lists or the register grow.
const LINES: usize = 20_000;
const LINES_GROWING: usize = 1000;

/// The firms of a reporting house.
const FIRMS: usize = 60;

const SIZES: [usize; 4] = [64, 1000, 10_000, 100_000];

/// Judges all lines of a day by the proved function, without asking for Polish identifiers. Hands back how many are
/// clean.
#[inline(never)]
fn ours(day: &BenchDay, register: &mut [u8]) -> usize {
    let [lei, cty, ccy, ven, ins] = &day.lists;
    let (day, micro, lines) = (day.day, day.micro, &day.lines);
    let mut findings = [0; COUNT_WITHOUT_POLISH];
    let mut clean = 0;
    for line in lines {
        let (register, findings) = (&mut *register, &mut findings[..]);
        let outcome =
            measured::judge(Call { line, lei, cty, ccy, ven, ins, register, day, micro, polish: 0, findings });
        clean += usize::from(outcome.answer == 0 && outcome.count == 0);
    }
    clean
}

/// The same by the reference, with lists and register that it has read.
#[inline(never)]
fn reference(day: &BenchDay, lists: &Lists, register: &mut Register) -> usize {
    let moment = Moment::new(day.day, day.micro).expect("the moment of a day");
    let mut findings = [0; COUNT_WITHOUT_POLISH];
    let mut clean = 0;
    for line in &day.lines {
        let outcome = judge_line(lists, register, moment, false, &mut findings, line);
        clean += usize::from(outcome.answer == 0 && outcome.count == 0);
    }
    clean
}

/// The lines of a day with the verdicts that they got, to be noted.
struct Notes {
    lines: Vec<Vec<u8>>,
    outcomes: Vec<Outcome>,
}

/// The records of a day's summary.
#[derive(PartialEq, Eq)]
struct Table {
    records: Vec<Record>,
    common: Record,
}

impl Table {
    fn empty() -> Table {
        Table { records: vec![Record::blank(); MOST_RECORDS], common: Record::blank() }
    }

    fn entities(&self) -> usize {
        self.records.iter().filter(|record| !record.is_free()).count()
    }
}

/// Notes all lines by the proved function. Hands back how many went to the common record.
#[inline(never)]
fn noting(notes: &Notes, table: &mut Table) -> usize {
    let Table { records, common } = table;
    let mut shared = 0;
    for (line, outcome) in notes.lines.iter().zip(&notes.outcomes) {
        shared += usize::from(measured::note(records, common, line, outcome).common);
    }
    shared
}

/// The same by the reference.
#[inline(never)]
fn reference_noting(notes: &Notes, table: &mut Table) -> usize {
    let Table { records, common } = table;
    let mut shared = 0;
    for (line, outcome) in notes.lines.iter().zip(&notes.outcomes) {
        shared += usize::from(host::reference::note(records, common, line, outcome).common);
    }
    shared
}

/// The reference's reading of the lists, once for all lines.
fn read(day: &BenchDay) -> Lists {
    let [lei, cty, ccy, ven, ins] = &day.lists;
    Lists::read(lei, cty, ccy, ven, ins).expect("the lists of a day")
}

fn timed<T>(work: impl FnOnce() -> T) -> (Duration, T) {
    let start = Instant::now();
    let made = work();
    (start.elapsed(), made)
}

/// Microseconds for a line.
#[derive(Clone, Copy)]
struct Pace {
    ours: f64,
    reference: f64,
}

/// The best of some rounds, ours and the reference's by turns. Both must leave the same register.
fn compare(day: &BenchDay) -> Pace {
    let lists = read(day);
    let mut best = [Duration::MAX; 2];
    for _ in 0..ROUNDS {
        let (mut mine, mut theirs) = (day.register.clone(), day.register.clone());
        let (time, clean) = timed(|| ours(day, &mut mine));
        assert_eq!(clean, day.clean, "clean lines, by ours");
        best[0] = best[0].min(time);
        let mut register = Register::open(&mut theirs).expect("the register of a day");
        let (time, clean) = timed(|| reference(day, &lists, &mut register));
        assert_eq!(clean, day.clean, "clean lines, by the reference");
        best[1] = best[1].min(time);
        assert!(mine == theirs, "the two registers differ");
    }
    let [ours, reference] = best.map(|time| time.as_secs_f64() * 1e6 / day.lines.len() as f64);
    Pace { ours, reference }
}

/// The day of the comparison, over a register of this version.
fn day_of(version: Version) -> BenchDay {
    let day = sized_bench_day(SEED, LINES, 64, 0);
    match version {
        Version::One => day,
        Version::Two => day.in_version_2(),
    }
}

/// The verdicts of a day's lines, by the reference.
fn outcomes(day: &BenchDay) -> Vec<Outcome> {
    let (lists, mut bytes) = (read(day), day.register.clone());
    let mut register = Register::open(&mut bytes).expect("the register of a day");
    let moment = Moment::new(day.day, day.micro).expect("the moment of a day");
    let mut findings = [0; COUNT_WITHOUT_POLISH];
    day.lines.iter().map(|line| judge_line(&lists, &mut register, moment, false, &mut findings, line)).collect()
}

/// The lines of the comparison, as they are or of so many entities, with the verdicts that they got as they are: so the
/// numbers to be counted are the same.
fn notes(day: &BenchDay, entities: Option<usize>) -> Notes {
    let lines = entities.map_or_else(|| day.lines.clone(), |entities| day.lines_of(SEED, entities));
    Notes { lines, outcomes: outcomes(day) }
}

/// The best of some rounds of noting, by turns, and how many entities there are. Both must leave the same table.
fn compare_noting(notes: &Notes) -> (usize, Pace) {
    let mut best = [Duration::MAX; 2];
    let mut entities = 0;
    for _ in 0..ROUNDS {
        let (mut mine, mut theirs) = (Table::empty(), Table::empty());
        let (time, common) = timed(|| noting(notes, &mut mine));
        best[0] = best[0].min(time);
        let (time, expected) = timed(|| reference_noting(notes, &mut theirs));
        best[1] = best[1].min(time);
        assert_eq!(common, expected, "lines in the common record");
        assert!(mine == theirs, "the two tables differ");
        entities = mine.entities();
    }
    let [ours, reference] = best.map(|time| time.as_secs_f64() * 1e6 / notes.lines.len() as f64);
    (entities, Pace { ours, reference })
}

fn print_pace() {
    let judging = print_pace_of(Version::One);
    println!("\nOver a register of version 2, whose rows have a day:\n");
    print_pace_of(Version::Two);
    println!("\nNoting the same lines in the day's summary, over a register of version 1:\n");
    print_noting(judging);
}

/// What noting a line takes beside judging it.
fn print_noting(judging: Pace) {
    println!("| Entities | Ours, microseconds a line | Reference | Ratio | Ours as a part of judging | Reference |");
    println!("|---|---|---|---|---|---|");
    let day = day_of(Version::One);
    for entities in [None, Some(FIRMS), Some(MOST_RECORDS)] {
        let (entities, Pace { ours, reference }) = compare_noting(&notes(&day, entities));
        let (part, their_part) = (ours / judging.ours, reference / judging.reference);
        let ratio = ours / reference;
        println!("| {entities} | {ours:.3} | {reference:.3} | {ratio:.2} | {part:.3} | {their_part:.3} |");
    }
}

fn print_pace_of(version: Version) -> Pace {
    let pace = compare(&day_of(version));
    let Pace { ours, reference } = pace;
    println!("| | Lines per second | Microseconds a line |\n|---|---|---|");
    println!("| ours | {:.0} | {ours:.2} |", 1e6 / ours);
    println!("| reference | {:.0} | {reference:.2} |", 1e6 / reference);
    println!("\nOurs takes {:.2} times as long as the reference.", ours / reference);
    pace
}

fn print_row(size: usize, day: &BenchDay) {
    let Pace { ours, reference } = compare(day);
    println!("| {size} | {ours:.1} | {reference:.1} | {:.1} |", ours / reference);
}

fn print_growth() {
    println!("| Rows of each list | Ours, microseconds a line | Reference | Ratio |\n|---|---|---|---|");
    for rows in SIZES {
        print_row(rows, &sized_bench_day(SEED, LINES_GROWING, rows, 0));
    }
    println!("\n| Rows used of the register | Ours, microseconds a line | Reference | Ratio |\n|---|---|---|---|");
    for rows in [0].into_iter().chain(SIZES.into_iter().skip(1)) {
        print_row(rows, &sized_bench_day(SEED, LINES_GROWING, 64, rows));
    }
    let day = sized_bench_day(SEED, 1, 100_000, 0);
    let (time, _) = timed(|| read(&day));
    println!("\nReading lists of 100000 rows takes the reference {:.0} ms, once.", time.as_secs_f64() * 1e3);
}

/// One round of one side, for a program that counts instructions.
fn judge_once(side: &str, version: Version) {
    let mut day = day_of(version);
    let mut bytes = std::mem::take(&mut day.register);
    let clean = match side {
        "ours" => ours(&day, &mut bytes),
        _ => reference(&day, &read(&day), &mut Register::open(&mut bytes).expect("the register of a day")),
    };
    println!("{LINES} lines, {clean} of them clean");
}

/// One round of noting by one side, with verdicts had before, for a program that counts instructions.
fn note_once(side: &str, entities: Option<usize>) {
    let notes = notes(&day_of(Version::One), entities);
    let mut table = Table::empty();
    let common = match side {
        "noting" => noting(&notes, &mut table),
        _ => reference_noting(&notes, &mut table),
    };
    println!("{LINES} lines, {common} of them in the common record, {} entities", table.entities());
}

fn main() -> ExitCode {
    let arguments: Vec<String> = std::env::args().skip(1).collect();
    let arguments: Vec<&str> = arguments.iter().map(String::as_str).collect();
    match arguments[..] {
        ["pace"] => print_pace(),
        ["growth"] => print_growth(),
        ["once", side @ ("ours" | "reference")] | ["once", side @ ("ours" | "reference"), "1"] => {
            judge_once(side, Version::One);
        }
        ["once", side @ ("ours" | "reference"), "2"] => judge_once(side, Version::Two),
        ["once", side @ ("noting" | "reference_noting")] | ["once", side @ ("noting" | "reference_noting"), "few"] => {
            note_once(side, None);
        }
        ["once", side @ ("noting" | "reference_noting"), "60"] => note_once(side, Some(FIRMS)),
        ["once", side @ ("noting" | "reference_noting"), "256"] => note_once(side, Some(MOST_RECORDS)),
        _ => {
            eprintln!("{USAGE}");
            return ExitCode::from(2);
        }
    }
    ExitCode::SUCCESS
}
