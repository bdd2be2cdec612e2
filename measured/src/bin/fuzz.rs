//! Calls the proved functions with good, changed and random bytes, all of them against pages that nobody may touch.

use std::io::Write;
use std::process::ExitCode;
use std::sync::atomic::{AtomicU64, Ordering};
use std::time::{Duration, Instant};

use host::codes::{CODES, COUNT};
use host::file::{Answered, Case};
use host::reference::{Call, Noted, Record, MOST_RECORDS};
use measured::changes::{Calls, Conversion, Noting, Thrown};
use measured::guarded::{Against, Guarded};

const USAGE: &str = "usage: fuzz SEED COUNT [SECONDS]
Makes COUNT calls, the same for the same SEED, but ends after so many SECONDS (600).";

/// More bytes than a call of ours ever has in one run of them, but for the records of a table.
const ROOM: usize = 1 << 16;
const TABLE_ROOM: usize = 1 << 18;

/// No call takes a second; after so many it hangs.
const PATIENCE: u32 = 20;

/// The call under way, and the seed, for a message where it does not come back.
static CALL: AtomicU64 = AtomicU64::new(0);
static SEED: AtomicU64 = AtomicU64::new(0);

extern "C" {
    fn signal(number: i32, handler: extern "C" fn(i32)) -> usize;
    fn alarm(seconds: u32) -> u32;
    fn _exit(status: i32) -> !;
}

/// SIGILL, SIGBUS, SIGFPE, SIGSEGV: a crash. SIGALRM: a hang.
const ENDINGS: [i32; 5] = [4, 7, 8, 11, 14];

extern "C" fn ended(number: i32) {
    let mut text = [0; 100];
    let mut rest = &mut text[..];
    let (seed, call) = (SEED.load(Ordering::Relaxed), CALL.load(Ordering::Relaxed));
    let what = if number == 14 { "did not end" } else { "crashed" };
    let _ = writeln!(rest, "fuzz: call {call} of seed {seed} {what} (signal {number})");
    let left = rest.len();
    let _ = std::io::stderr().write_all(&text[..100 - left]);
    unsafe { _exit(1) }
}

/// A place for each run of bytes of a call.
struct Places {
    read: [Guarded; 6],
    register: Guarded,
    findings: Guarded,
    records: Guarded,
    common: Guarded,
}

impl Places {
    fn new() -> Places {
        Places {
            read: std::array::from_fn(|_| Guarded::new(ROOM)),
            register: Guarded::new(ROOM),
            findings: Guarded::new(ROOM),
            records: Guarded::new(TABLE_ROOM),
            common: Guarded::new(ROOM),
        }
    }

    /// Makes a call with all its bytes against the guards before or behind them.
    fn judge(&mut self, case: &Case, against: Against) -> Answered {
        let [line, lei, cty, ccy, ven, ins] = &mut self.read;
        let register = self.register.lend(&case.register, against);
        let findings = self.findings.lend_entries(&case.findings, against);
        let outcome = measured::judge(Call {
            line: line.show(&case.line, against),
            lei: lei.show(&case.lists[0], against),
            cty: cty.show(&case.lists[1], against),
            ccy: ccy.show(&case.lists[2], against),
            ven: ven.show(&case.lists[3], against),
            ins: ins.show(&case.lists[4], against),
            register: &mut *register,
            day: case.day,
            micro: case.micro,
            polish: case.polish,
            findings: &mut *findings,
        });
        Answered { outcome, findings: findings.to_vec(), register: register.to_vec() }
    }

    /// Makes a conversion in the same way. Its source lies where it can only be read.
    fn convert(&mut self, conversion: &Conversion, against: Against) -> Converted {
        let from = self.read[0].show(&conversion.from, against);
        let to = self.register.lend(&conversion.to, against);
        let answer = measured::convert(from, to);
        assert!(from == conversion.from, "a source that was written to");
        Converted { answer, to: to.to_vec() }
    }

    /// Notes a line in the same way.
    fn note(&mut self, noting: &Noting, against: Against) -> Counted {
        let line = self.read[0].show(&noting.line, against);
        let records = self.records.lend_records(&noting.records, against);
        let common = self.common.lend_records(std::slice::from_ref(&noting.common), against);
        let noted = measured::note(records, &mut common[0], line, &noting.outcome);
        assert!(line == noting.line, "a line that was written to");
        Counted { noted, records: records.to_vec(), common: common[0].clone() }
    }
}

/// What comes of noting a line: where it went, and the whole table afterwards.
#[derive(PartialEq, Eq)]
struct Counted {
    noted: Noted,
    records: Vec<Record>,
    common: Record,
}

impl Counted {
    /// Asks the reference.
    fn by_reference(noting: &Noting) -> Counted {
        let Noting { mut records, mut common, line, outcome } = noting.clone();
        let noted = host::reference::note(&mut records, &mut common, &line, &outcome);
        Counted { noted, records, common }
    }

    /// The records one behind another, the common one behind them.
    fn in_bytes(&self) -> Vec<u8> {
        self.records.iter().chain([&self.common]).flat_map(Record::to_bytes).collect()
    }

    /// The numbers of the records that are not as they were.
    fn changed(&self, noting: &Noting) -> Vec<usize> {
        (0..self.records.len()).filter(|&number| self.records[number] != noting.records[number]).collect()
    }

    /// What is promised of every line, whatever the reference says. The first promise that is broken, in words.
    fn broken(&self, noting: &Noting) -> Option<&'static str> {
        let changed = self.changed(noting);
        if changed.iter().any(|&number| number >= MOST_RECORDS) {
            return Some("a record changed behind those that are used");
        }
        if changed.len() > usize::from(!self.noted.common) {
            return Some("a record changed that the line is not noted in");
        }
        (!self.noted.common && self.common != noting.common).then_some("a common record changed by a line of another")
    }
}

/// What comes of a conversion: the answer and the whole target afterwards.
#[derive(PartialEq, Eq)]
struct Converted {
    answer: u16,
    to: Vec<u8>,
}

impl Converted {
    /// Asks the reference.
    fn by_reference(conversion: &Conversion) -> Converted {
        let mut to = conversion.to.clone();
        Converted { answer: host::reference::convert(&conversion.from, &mut to), to }
    }
}

/// What is promised of every answer, whatever the reference says. The first promise that is broken, in words.
fn broken(case: &Case, answered: &Answered) -> Option<&'static str> {
    let outcome = &answered.outcome;
    let count = usize::from(outcome.count);
    if outcome.answer != 0 {
        let silent = count == 0 && outcome.words == [0; 3];
        let same = answered.findings == case.findings && answered.register == case.register;
        return (!silent || !same).then_some("a refusal that says or changes something");
    }
    let bit = |place: usize| outcome.words[place / 64] >> (place % 64) & 1 == 1;
    let codes: Vec<u16> =
        (0..192).filter(|place| bit(*place)).map(|place| CODES.get(place).copied().unwrap_or(0)).collect();
    if codes.len() != count || answered.findings.get(..count) != Some(&codes[..]) {
        return Some("words, count and findings that do not belong together");
    }
    if answered.findings[count..] != case.findings[count..] {
        return Some("an entry changed behind the findings");
    }
    (count != 0 && answered.register != case.register).then_some("a register changed by a line with findings")
}

/// The answers to a conversion.
const CONVERSIONS: [u16; 3] = [0, 6, 12];

/// What came of all calls.
struct Tally {
    calls: u64,
    answers: [u64; 12],
    clean: u64,
    codes: [u64; COUNT],
    /// Calls judged over a register of version 2, and those of them without a finding.
    version_2: [u64; 2],
    conversions: [u64; CONVERSIONS.len()],
    /// Lines noted in a record, of these such as took it, and lines in the common record; and those of them all that met
    /// a counter at its top.
    notes: [u64; 3],
    stuck: u64,
}

impl Tally {
    fn add_note(&mut self, noting: &Noting, counted: &Counted) {
        self.calls += 1;
        let taken = counted.changed(noting).iter().any(|&number| noting.records[number].is_free());
        let Noted { common, stuck } = counted.noted;
        self.notes[0] += u64::from(!common);
        self.notes[1] += u64::from(taken);
        self.notes[2] += u64::from(common);
        self.stuck += u64::from(stuck);
    }

    fn add_conversion(&mut self, converted: &Converted) {
        self.calls += 1;
        let which = CONVERSIONS.iter().position(|answer| *answer == converted.answer).expect("the reference's answer");
        self.conversions[which] += 1;
    }

    fn add(&mut self, answered: &Answered) {
        self.calls += 1;
        if answered.outcome.answer == 0 && answered.register[3] == 2 {
            self.version_2[0] += 1;
            self.version_2[1] += u64::from(answered.outcome.count == 0);
        }
        self.answers[usize::from(answered.outcome.answer)] += 1;
        self.clean += u64::from(answered.outcome.answer == 0 && answered.outcome.count == 0);
        for code in answered.codes() {
            self.codes[CODES.binary_search(code).expect("a known code")] += 1;
        }
    }

    fn print(&self, seed: u64, time: Duration) {
        println!("seed {seed}: {} calls, each made twice, in {:.0} s: no difference", self.calls, time.as_secs_f64());
        let refused: Vec<String> = (1..12).map(|number| format!("{number}: {}", self.answers[number])).collect();
        println!("judged: {}, of them without a finding: {}", self.answers[0], self.clean);
        let [judged, clean] = self.version_2;
        println!("judged with version 2: {judged}, of them without a finding: {clean}");
        println!("refused, by number: {}", refused.join(", "));
        let seen = self.codes.iter().filter(|times| **times > 0).count();
        let (rarest, code) = self.codes.iter().zip(CODES).min().expect("there are codes");
        println!("codes: {seen} of {COUNT} seen; the rarest is {code:03}, seen {rarest} times");
        let [done, source, room] = self.conversions;
        println!("conversions: {}; done: {done}, refused by 6: {source}, by 12: {room}", done + source + room);
        let ([own, taken, common], stuck) = (self.notes, self.stuck);
        println!(
            "noted: {}; in a record: {own}, of these in a free one: {taken}; in the common record: {common}",
            own + common
        );
        println!("noted with a counter at its top: {stuck}");
    }
}

/// Where two buffers of one length differ first, in words.
fn first_difference(name: &str, expected: &[u8], ours: &[u8]) -> String {
    match (0..ours.len()).find(|&at| expected[at] != ours[at]) {
        Some(at) => format!("{name} byte {at}: {}, the reference has {}", ours[at], expected[at]),
        None => format!("the {name} is the same"),
    }
}

/// Makes one call twice and holds it against the promises and the reference.
fn check(places: &mut Places, case: &Case) -> Result<Answered, String> {
    unsafe { alarm(PATIENCE) };
    let answered = places.judge(case, Against::End);
    let again = places.judge(case, Against::Start);
    unsafe { alarm(0) };
    if let Some(promise) = broken(case, &answered) {
        return Err(format!("{promise}: {:?} {:?}", answered.outcome, answered.codes()));
    }
    if again != answered {
        return Err(format!("the same call answered otherwise: {:?}, {:?}", answered.outcome, again.outcome));
    }
    let expected = case.judge();
    if expected != answered {
        let (ours, theirs) = (answered.codes(), expected.codes());
        return Err(format!(
            "{:?} {ours:?}, the reference says {:?} {theirs:?}; {}",
            answered.outcome,
            expected.outcome,
            first_difference("register", &expected.register, &answered.register)
        ));
    }
    Ok(answered)
}

/// Makes one conversion twice and holds it against the promises and the reference.
fn check_conversion(places: &mut Places, conversion: &Conversion) -> Result<Converted, String> {
    unsafe { alarm(PATIENCE) };
    let converted = places.convert(conversion, Against::End);
    let again = places.convert(conversion, Against::Start);
    unsafe { alarm(0) };
    let answer = converted.answer;
    if answer != 0 && converted.to != conversion.to {
        return Err(format!("answer {answer}, and yet something is written"));
    }
    if again != converted {
        return Err(format!("the same conversion answered otherwise: {answer}, {}", again.answer));
    }
    let expected = Converted::by_reference(conversion);
    if expected != converted {
        let differs = first_difference("target", &expected.to, &converted.to);
        return Err(format!("answer {answer}, the reference says {}; {differs}", expected.answer));
    }
    Ok(converted)
}

/// Notes one line twice and holds it against the promises and the reference.
fn check_note(places: &mut Places, noting: &Noting) -> Result<Counted, String> {
    unsafe { alarm(PATIENCE) };
    let counted = places.note(noting, Against::End);
    let again = places.note(noting, Against::Start);
    unsafe { alarm(0) };
    let noted = counted.noted;
    if let Some(promise) = counted.broken(noting) {
        return Err(format!("{promise}: {noted:?}"));
    }
    if again != counted {
        return Err(format!("the same line noted otherwise: {noted:?}, {:?}", again.noted));
    }
    let expected = Counted::by_reference(noting);
    if expected != counted {
        let (theirs, ours) = (expected.in_bytes(), counted.in_bytes());
        let differs = first_difference("table", &theirs, &ours);
        return Err(format!("{noted:?}, the reference says {:?}; {differs}", expected.noted));
    }
    Ok(counted)
}

/// A call for a message. The seed makes it again, so the lists and the register are not printed.
fn in_words(case: &Case) -> String {
    let Case { line, register, day, micro, polish, findings, .. } = case;
    let (line, register, entries) = (line.escape_ascii(), register.len(), findings.len());
    format!("day {day}, micro {micro}, polish {polish}, register of {register} bytes, {entries} entries\n{line}")
}

fn conversion_in_words(Conversion { from, to }: &Conversion) -> String {
    let head = &from[..from.len().min(9)];
    format!("a source of {} bytes with the head {head:02x?}, a target of {} bytes", from.len(), to.len())
}

fn noting_in_words(Noting { records, line, outcome, .. }: &Noting) -> String {
    format!("a table of {} records, noted with {outcome:?}\n{}", records.len(), line.escape_ascii())
}

fn run(seed: u64, count: u64, seconds: u64) -> Result<(), String> {
    SEED.store(seed, Ordering::Relaxed);
    for number in ENDINGS {
        unsafe { signal(number, ended) };
    }
    let start = Instant::now();
    let mut calls = Calls::new(seed);
    let mut places = Places::new();
    let mut tally = Tally {
        calls: 0,
        answers: [0; 12],
        clean: 0,
        codes: [0; COUNT],
        version_2: [0; 2],
        conversions: [0; 3],
        notes: [0; 3],
        stuck: 0,
    };
    while tally.calls < count && start.elapsed() < Duration::from_secs(seconds) {
        let number = tally.calls + 1;
        CALL.store(number, Ordering::Relaxed);
        let told = |what: String, call: String| format!("call {number} of seed {seed}: {what}\n{call}");
        match calls.next_call() {
            Thrown::Judged(case) => {
                tally.add(&check(&mut places, &case).map_err(|what| told(what, in_words(&case)))?);
            }
            Thrown::Converted(conversion) => {
                let converted = check_conversion(&mut places, &conversion);
                tally.add_conversion(&converted.map_err(|what| told(what, conversion_in_words(&conversion)))?);
            }
            Thrown::Noted(noting) => {
                let counted = check_note(&mut places, &noting);
                tally.add_note(&noting, &counted.map_err(|what| told(what, noting_in_words(&noting)))?);
            }
        }
    }
    tally.print(seed, start.elapsed());
    Ok(())
}

fn main() -> ExitCode {
    let numbers: Option<Vec<u64>> = std::env::args().skip(1).map(|argument| argument.parse().ok()).collect();
    let done = match numbers.as_deref() {
        Some(&[seed, count]) => run(seed, count, 600),
        Some(&[seed, count, seconds]) => run(seed, count, seconds),
        _ => {
            eprintln!("{USAGE}");
            return ExitCode::from(2);
        }
    };
    match done {
        Ok(()) => ExitCode::SUCCESS,
        Err(message) => {
            eprintln!("fuzz: {message}");
            ExitCode::from(1)
        }
    }
}
