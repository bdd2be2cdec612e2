//! Days: lines of many entities, judged one after another over one register and noted in one table.

use crate::codes::{place, CODES, COUNT};
use crate::days::{CallAnswer, DayCall, Kept, MOST_RECORDS};
use crate::file::{Case, LONGEST_LINE};
use crate::reference::{register_frame, Lei, Outcome, Record, Version};

use super::draft::{Draft, Maker, Want};
use super::rng::{Rng, ALPHANUMERIC};
use super::world::{make_lei, World};

/// How many records the tables of days have in turn; any number where it says nothing.
const ROOMS: [Option<usize>; 8] =
    [Some(256), None, Some(MOST_RECORDS), Some(1), Some(257), Some(2), Some(0), Some(255)];

/// How many rows the registers of days have room for.
const ROWS: [usize; 7] = [400, 0, 120, 1, 800, 30, 5];

/// Where a counter is near its top.
const TOP: u32 = u32::MAX;

/// Makes the calls of one day, one after another, and keeps what they leave.
pub struct DayRecipe {
    maker: Maker,
    /// The entities of the day.
    firms: Vec<Lei>,
    /// How many of them came up in turn, and those that came up last.
    turn: usize,
    last: Vec<Lei>,
    /// Pairs that were accepted.
    pairs: Vec<(Lei, Vec<u8>)>,
    /// The refusals in turn.
    refusals: u16,
    calls_left: usize,
    pub kept: Kept,
}

impl DayRecipe {
    /// The day of this number.
    pub fn new(seed: u64, number: usize) -> DayRecipe {
        let mut rng = Rng::new(Rng::new(seed).next() ^ number as u64);
        let mut world = World::make(&mut rng);
        let room = ROOMS[number % ROOMS.len()].unwrap_or_else(|| rng.between(3, 254));
        let count = if room > 254 { rng.of(&[257, 270, 300]) } else { rng.of(&[1, 3, 20, 60, 300]) };
        let firms = firms(&mut rng, &mut world, count);
        let any_bytes = (number % ROOMS.len() + number / ROOMS.len()) % 3 == 2;
        let kept = Kept {
            register: register(&mut rng, ROWS[number % ROWS.len()]),
            records: (0..room)
                .map(|_| if any_bytes { any_record(&mut rng, &firms) } else { Record::blank() })
                .collect(),
            common: if any_bytes || rng.one_in(4) { any_record(&mut rng, &firms) } else { Record::blank() },
        };
        let calls_left = if room > 254 { rng.between(1_200, 1_700) } else { rng.between(300, 900) };
        let maker = Maker { rng, world, polish: true };
        DayRecipe { maker, firms, turn: 0, last: Vec::new(), pairs: Vec::new(), refusals: 0, calls_left, kept }
    }

    /// The next call with what comes of it; nothing at the end of the day.
    pub fn next_call(&mut self) -> Option<(DayCall, CallAnswer)> {
        self.calls_left = self.calls_left.checked_sub(1)?;
        let call = self.make_call();
        let answer = self.kept.call(&call);
        if answer.outcome == Outcome::default() && call.line.starts_with(b"NEW") {
            let cells: Vec<&[u8]> = call.line.split(|byte| *byte == b'|').collect();
            self.pairs.push((cells[3].try_into().expect("an entity"), cells[1].to_vec()));
        }
        Some((call, answer))
    }

    fn make_call(&mut self) -> DayCall {
        match self.maker.rng.below(100) {
            0..=34 => {
                let draft = self.new_line();
                self.plain(&draft)
            }
            35..=51 => {
                let draft = self.cancellation();
                self.plain(&draft)
            }
            52..=66 => {
                let draft = self.faulty_line();
                self.plain(&draft)
            }
            67..=72 => {
                let cell = self.maker.rng.of(&[1, 4]);
                let draft = self.malformed(cell);
                self.plain(&draft)
            }
            73..=82 => self.refused(),
            83..=90 => self.any_line(),
            _ => self.with_other_verdict(),
        }
    }

    /// A firm: one that was not there yet, one that was there just before, or any.
    fn firm(&mut self) -> Lei {
        let rng = &mut self.maker.rng;
        let firm = match rng.below(3) {
            0 if !self.last.is_empty() => rng.of(&self.last),
            1 => {
                self.turn += 1;
                self.firms[self.turn % self.firms.len()]
            }
            _ => rng.of(&self.firms),
        };
        self.last.push(firm);
        if self.last.len() > 10 {
            self.last.remove(0);
        }
        firm
    }

    /// A firm and a reference: few for each, so that they come back, or the draft's own.
    fn set_pair(&mut self, draft: &mut Draft) {
        draft.set(4, self.firm());
        if !self.maker.rng.one_in(4) {
            draft.set(2, self.maker.rng.of(&["R1", "R2", "R3", "R4", "R5"]));
        }
    }

    fn new_line(&mut self) -> Draft {
        let entity = self.firm();
        let (t, firm) = (Some(self.maker.world.t), Some(true));
        let mut draft = self.maker.clean(Want { t, firm, entity: Some(entity), ..Want::default() });
        self.set_pair(&mut draft);
        draft.set(4, entity);
        draft
    }

    /// Mostly of a pair that was accepted.
    fn cancellation(&mut self) -> Draft {
        let mut draft = self.maker.cancellation();
        self.set_pair(&mut draft);
        if !self.pairs.is_empty() && !self.maker.rng.one_in(4) {
            let (entity, reference) = &self.pairs[self.maker.rng.below(self.pairs.len())];
            draft.set(4, entity);
            draft.set(2, reference);
        }
        draft
    }

    /// A line that meets some code, and perhaps others by its firm and its pair.
    fn faulty_line(&mut self) -> Draft {
        let code = self.maker.rng.of(&CODES);
        let mut draft = match code {
            1001..=1065 => return self.malformed(usize::from(code) - 1000),
            3307.. => {
                let turn = self.maker.rng.below(COUNT);
                self.maker.polish_turn(turn).0
            }
            _ => self.maker.rule(code, true).0,
        };
        self.set_pair(&mut draft);
        draft
    }

    /// A line of a firm with this cell malformed.
    fn malformed(&mut self, cell: usize) -> Draft {
        let (mut draft, _) = self.maker.form(cell, true);
        let (entity, reference) = (draft.get(4).to_vec(), draft.get(2).to_vec());
        self.set_pair(&mut draft);
        match cell {
            2 => draft.set(2, reference),
            4 => draft.set(4, entity),
            _ => {}
        }
        draft
    }

    /// The call of a draft over the register as it is.
    fn plain(&mut self, draft: &Draft) -> DayCall {
        let case = self.maker.case(draft);
        let mut call = self.over_register(case);
        // Now and then there is no room for another row, or just for one.
        if let (true, Some((version, used))) = (self.maker.rng.one_in(20), register_frame(&self.kept.register)) {
            let rows = used as usize + self.maker.rng.below(2);
            call.lent = version.length(rows).min(self.kept.register.len());
        }
        call
    }

    /// A call of the recipe over the register as it is.
    fn over_register(&self, case: Case) -> DayCall {
        let Case { line, lists, day, micro, polish, findings, .. } = case;
        let (lent, entries) = (self.kept.register.len(), findings.len());
        DayCall { line, lists, lent, day, micro, polish, entries, other: None }
    }

    /// A line of a firm that is refused by 1 to 10 in turn, or by several of them.
    fn refused(&mut self) -> DayCall {
        let draft = if self.maker.rng.one_in(4) { self.cancellation() } else { self.new_line() };
        let mut case = self.maker.case(&draft);
        let number = self.refusals % 11 + 1;
        self.refusals += 1;
        match number {
            6 => {}
            11 => case = self.maker.refusals().0,
            _ => self.maker.damage(&mut case, number),
        }
        let mut call = self.over_register(case);
        if number == 6 {
            let (version, used) = register_frame(&self.kept.register).expect("what the calls before left");
            let short = version.length(used as usize) - 1;
            call.lent = self.maker.rng.of(&[0, 1, 8, short, short]);
        }
        call
    }

    /// A line of the recipe that is changed at random, often with a firm in cell 4.
    fn any_line(&mut self) -> DayCall {
        let (mut case, _) = match self.maker.rng.below(3) {
            0 => self.maker.mixture(),
            1 => self.maker.nudges(),
            _ => self.maker.wreck(),
        };
        if self.maker.rng.one_in(2) {
            let firm = self.firm();
            put_cell(&mut case.line, 4, &firm);
            case.line.truncate(LONGEST_LINE);
        }
        self.over_register(case)
    }

    /// A line, good or odd, noted with a verdict that it did not get.
    fn with_other_verdict(&mut self) -> DayCall {
        let draft = if self.maker.rng.one_in(4) { self.cancellation() } else { self.new_line() };
        let mut call = self.plain(&draft);
        if self.maker.rng.one_in(2) {
            let firm = self.firm();
            call.line = odd_line(&mut self.maker.rng, call.line, &firm);
        }
        call.other = Some(any_verdict(&mut self.maker.rng));
        call
    }
}

/// So many entities, each another: in the list with right check digits and with wrong ones, in it with any row, not in it,
/// and such as differ from the one before in a byte.
fn firms(rng: &mut Rng, world: &mut World, count: usize) -> Vec<Lei> {
    let (mut firms, mut listed, mut wrong): (Vec<Lei>, Vec<Lei>, Vec<Lei>) = Default::default();
    while firms.len() < count {
        let mut firm = make_lei(rng);
        let kind = rng.below(10);
        match kind {
            6 => firm = rng.of(&world.leis),
            7 => firm[19] = b'0' + (firm[19] - b'0' + 1) % 10,
            8 if !firms.is_empty() => {
                firm = firms[firms.len() - 1];
                firm[rng.of(&[0, 0, 9, 19, 19])] = rng.of(b"0123456789");
            }
            _ => {}
        }
        if firms.contains(&firm) {
            continue;
        }
        firms.push(firm);
        match kind {
            0..=5 => listed.push(firm),
            7 if rng.one_in(2) => wrong.push(firm),
            _ => {}
        }
    }
    world.add_firms(rng, &listed, true);
    world.add_firms(rng, &wrong, false);
    firms
}

/// An empty register of either version with room for so many rows, and a few bytes more.
fn register(rng: &mut Rng, rows: usize) -> Vec<u8> {
    let version = rng.of(&Version::ALL);
    let mut register = version.head(0);
    let (tail, fill) = (rng.of(&[0, 0, 1, version.width() - 1]), rng.of(&[0, 1, 0xff]));
    register.resize(version.length(rows) + tail, fill);
    register
}

/// A record with any bytes: free, clean or not; one of a firm; one of another name.
fn any_record(rng: &mut Rng, firms: &[Lei]) -> Record {
    let mut record = Record::new(rng.of(firms));
    match rng.below(10) {
        0 => return Record::blank(),
        1..=2 => record.entity[0] = 0,
        3 => record.entity = [0; 20],
        4 => record.entity = rng.array(ALPHANUMERIC),
        5 => record.entity = std::array::from_fn(|_| rng.next() as u8),
        _ => {}
    }
    for counter in counters(&mut record) {
        let (near, any) = (TOP - rng.below(4) as u32, rng.next() as u32);
        *counter = rng.of(&[0, 1, 255, 256, 65_535, 1 << 31, any, near, near, near, near, near]);
    }
    record
}

fn counters(record: &mut Record) -> impl Iterator<Item = &mut u32> {
    let Record { entity: _, accepted, cancelled, found, full, refused, codes } = record;
    [accepted, cancelled, found, full, refused].into_iter().chain(codes)
}

/// Puts a value into a cell of a line that has so many.
fn put_cell(line: &mut Vec<u8>, number: usize, value: &[u8]) {
    let mut cells: Vec<&[u8]> = line.split(|byte| *byte == b'|').collect();
    if let Some(cell) = cells.get_mut(number - 1) {
        *cell = value;
    }
    *line = cells.join(&b'|');
}

/// A line whose cells 1 and 4 are at an edge of what is looked at, or which ends before or right behind cell 4.
fn odd_line(rng: &mut Rng, mut line: Vec<u8>, firm: &Lei) -> Vec<u8> {
    match rng.below(10) {
        0 => put_cell(&mut line, 1, rng.of(&[&b""[..], b"NE", b"new", b"CXL ", b"x", b"NE|W"])),
        7 | 8 => put_cell(&mut line, 1, rng.of(&[&b"NEWS"[..], b"NEW ", b"NEW\0", b" NEW"])),
        1 => put_cell(&mut line, 4, &firm[..rng.of(&[0, 1, 19])]),
        2 => put_cell(&mut line, 4, &[&firm[..], rng.of(&[&b" "[..], b"0", b"\0", &firm[..]])].concat()),
        3 => {
            let mut entity = *firm;
            entity[rng.of(&[0, 0, 1, 19])] = 0;
            put_cell(&mut line, 4, &entity);
        }
        4 => {
            let entity: Vec<u8> = rng.bytes(20).into_iter().map(|byte| byte ^ u8::from(byte == b'|')).collect();
            put_cell(&mut line, 4, &entity);
        }
        5 => line = [b"NEW|R1||", &firm[..]].concat(),
        6 => line = [rng.of(&[&b"NEW"[..], b"CXL", b""]), rng.of(&[&b"||"[..], b"|||", b"|||||"]), &firm[..]].concat(),
        _ => line = rng.of(&[&b""[..], b"NEW", b"CXL|", b"NEW||", b"NEW|||", b"||||"]).to_vec(),
    }
    line
}

/// Any answer, count and words.
fn any_verdict(rng: &mut Rng) -> Outcome {
    let (answer, count, refusal) = (rng.next() as u16, rng.next() as u16, rng.between(1, 12) as u16);
    Outcome {
        answer: rng.of(&[0, 0, 0, 0, 0, 0, 0, 0, 11, 11, refusal, refusal, 12, 256, 267, answer]),
        count: rng.of(&[0, 0, 0, 0, 1, 2, 256, 65_535, count]),
        words: any_words(rng),
    }
}

/// Words with no bit, few, many or all of them; most often without those of 1001 and 1004, or with one of them alone.
fn any_words(rng: &mut Rng) -> [u64; 3] {
    let mut any = || std::array::from_fn(|_| rng.next());
    let (many, others): ([u64; 3], [u64; 3]) = (any(), any());
    let few = std::array::from_fn(|at| many[at] & others[at] & (others[at] >> 7));
    // Behind the last code.
    let behind = [0, 0, others[2] << (COUNT - 128)];
    let mut words = rng.of(&[[0; 3], [0; 3], [u64::MAX; 3], many, few, few, few, behind]);
    let mut set = |code: u16, bit: bool| {
        let (word, mask) = (&mut words[place(code) / 64], 1 << (place(code) % 64));
        *word = if bit { *word | mask } else { *word & !mask };
    };
    if let Some((first, fourth)) = rng.of(&[
        None,
        Some((false, false)),
        Some((false, false)),
        Some((false, false)),
        Some((true, false)),
        Some((false, true)),
        Some((true, true)),
    ]) {
        set(1001, first);
        set(1004, fourth);
    }
    words
}
