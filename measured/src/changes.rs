//! Calls to throw at the proved functions: good ones of the recipe, good ones changed here and there, and noise.

use host::codes::{place, COUNT};
use host::file::Case;
use host::recipe::Recipe;
use host::reference::{register_frame, Outcome, Record, Version};

/// A small generator of pseudo-random numbers (SplitMix64).
struct Rng(u64);

impl Rng {
    fn new(seed: u64) -> Rng {
        Rng(seed)
    }

    fn next(&mut self) -> u64 {
        self.0 = self.0.wrapping_add(0x9E37_79B9_7F4A_7C15);
        let mut z = self.0;
        z = (z ^ (z >> 30)).wrapping_mul(0xBF58_476D_1CE4_E5B9);
        z = (z ^ (z >> 27)).wrapping_mul(0x94D0_49BB_1331_11EB);
        z ^ (z >> 31)
    }

    /// A number below `end`, which is not 0.
    fn below(&mut self, end: usize) -> usize {
        (self.next() % end as u64) as usize
    }

    /// One of some values.
    fn of<T: Copy>(&mut self, from: &[T]) -> T {
        from[self.below(from.len())]
    }

    /// Up to so many bytes, of any kind or of the kinds that cells are written in.
    fn noise(&mut self, most: usize) -> Vec<u8> {
        let length = self.below(most + 1);
        let alphabet =
            self.of(&[&b""[..], b"", b"0123456789", b"ABCDEFGHIJKLMNOPQRSTUVWXYZ0123456789", b"|:.-+#TZ09AZ "]);
        match alphabet {
            [] => (0..length).map(|_| self.next() as u8).collect(),
            _ => (0..length).map(|_| self.of(alphabet)).collect(),
        }
    }

    /// A part of some bytes, perhaps none, and at most 64 of them.
    fn range(&mut self, length: usize) -> std::ops::Range<usize> {
        let start = self.below(length + 1);
        let most = (length - start).min(64);
        start..start + self.below(most + 1)
    }
}

/// Marks and row widths of the five lists.
const FRAMES: [(&[u8; 3], usize); 5] = [(b"LEI", 30), (b"CTY", 10), (b"CCY", 12), (b"VEN", 13), (b"INS", 26)];

/// A register to be converted, and where to.
#[derive(Clone, Debug, PartialEq, Eq)]
pub struct Conversion {
    pub from: Vec<u8>,
    pub to: Vec<u8>,
}

/// A line to be noted, with a verdict, in a table.
#[derive(Clone, Debug, PartialEq, Eq)]
pub struct Noting {
    pub records: Vec<Record>,
    pub common: Record,
    pub line: Vec<u8>,
    pub outcome: Outcome,
}

/// What is thrown.
pub enum Thrown {
    Judged(Case),
    Converted(Conversion),
    Noted(Box<Noting>),
}

/// Makes one call after another.
pub struct Calls {
    rng: Rng,
    recipe: Recipe,
    /// The call before, of which parts are taken.
    before: Case,
}

impl Calls {
    pub fn new(seed: u64) -> Calls {
        let mut recipe = Recipe::new(seed);
        let before = recipe.next_case().0;
        Calls { rng: Rng::new(seed), recipe, before }
    }

    /// One call in eight is a conversion, and one notes a line.
    pub fn next_call(&mut self) -> Thrown {
        match self.rng.below(8) {
            0 => Thrown::Converted(self.next_conversion()),
            1 => Thrown::Noted(Box::new(self.next_noting())),
            _ => Thrown::Judged(self.next_case()),
        }
    }

    /// Of ten calls one is good, seven are changed, one has noise in good frames, and one is noise all over.
    fn next_case(&mut self) -> Case {
        let (mut case, _) = self.recipe.next_case();
        match self.rng.below(10) {
            0 => {}
            1..=7 => {
                for _ in 0..1 + self.rng.below(4) {
                    self.change(&mut case);
                }
            }
            8 => self.fill_frames(&mut case),
            _ => self.make_noise(&mut case),
        }
        self.before = case.clone();
        case
    }

    /// Of ten sources two are registers of the recipe, five are changed, two have noise in good frames, and one is noise
    /// all over. Most targets have as much room as is needed or nearly so, and hold noise or a register.
    fn next_conversion(&mut self) -> Conversion {
        let (case, _) = self.recipe.next_case();
        let mut from = case.register;
        match self.rng.below(10) {
            0..=1 => {}
            2..=6 => {
                for _ in 0..1 + self.rng.below(2) {
                    self.change_bytes(&mut from, 0);
                }
            }
            7..=8 => from = framed_register(&mut self.rng),
            _ => from = self.rng.noise(400),
        }
        let rng = &mut self.rng;
        // Mostly version 1, which alone can be converted.
        if from.len() > 4 && rng.below(4) > 0 {
            from[3..5].copy_from_slice(&1u16.to_le_bytes());
        }
        let needed = Version::Two.length(register_frame(&from).map_or(1, |(_, used)| used as usize));
        let (more, any) = (needed + rng.below(200), rng.below(2100));
        let length = rng.of(&[needed - 1, needed, needed, needed + 1, more, more, any, any % 10]);
        let mut to = if rng.below(2) == 0 { self.before.register.clone() } else { Vec::new() };
        to.resize_with(length, || rng.next() as u8);
        Conversion { from, to }
    }

    /// A line of the recipe, every fourth time as it would be judged here, with the verdict that the reference gives it or
    /// any other, in a table of any records: every second one has a record of the line's entity.
    fn next_noting(&mut self) -> Noting {
        let before = entity(&self.before.line);
        let mut case = if self.rng.below(4) == 0 { self.next_case() } else { self.recipe.next_case().0 };
        let own = case.judge().outcome;
        let rng = &mut self.rng;
        if rng.below(4) == 0 {
            change_front(rng, &mut case.line);
        }
        let entities = [entity(&case.line), before].map(|entity| entity.unwrap_or([0; 20]));
        let any = rng.below(301);
        let room = rng.of(&[0, 1, 2, 3, 255, 256, 257, 300, any, any % 20]);
        // Tables without a free record, with a few or with many.
        let free = rng.of(&[0, 0, 1, 8, 64]);
        let mut records: Vec<Record> = (0..room).map(|_| any_record(rng, &entities, free)).collect();
        if room > 0 && rng.below(2) == 0 {
            let place = if rng.below(4) == 0 { room - 1 } else { rng.below(room) };
            records[place].entity = entities[0];
        }
        let common = any_record(rng, &entities, 8);
        let outcome = if rng.below(2) == 0 { own } else { any_outcome(rng, own) };
        Noting { records, common, line: case.line, outcome }
    }

    /// Changes one thing about a call, mostly its line.
    fn change(&mut self, case: &mut Case) {
        match self.rng.below(17) {
            0..=4 => self.change_bytes(&mut case.line, b'|'),
            5..=8 => self.change_cell(&mut case.line),
            9..=10 => {
                let list = self.rng.below(5);
                let mut bytes = case.lists[list].to_vec();
                self.change_bytes(&mut bytes, 0);
                case.lists[list] = bytes.into();
            }
            11..=12 => self.change_bytes(&mut case.register, 0),
            13 => case.register = self.before.register.clone(),
            14 => self.change_moment(case),
            15 => self.change_flag(case),
            _ => self.change_findings(case),
        }
    }

    /// A flipped bit, a cut, a mark or noise put in, a part of the line before, a part twice, nothing left.
    fn change_bytes(&mut self, bytes: &mut Vec<u8>, mark: u8) {
        let rng = &mut self.rng;
        let part = rng.range(bytes.len());
        match rng.below(12) {
            0..=3 if !bytes.is_empty() => {
                let at = rng.below(bytes.len());
                bytes[at] ^= 1 << rng.below(8);
            }
            0..=4 => bytes.truncate(part.start),
            5 => drop(bytes.drain(part)),
            6..=7 => bytes.insert(part.start, mark),
            8 => drop(bytes.splice(part, rng.noise(16))),
            9 => {
                let other = &self.before.line[rng.range(self.before.line.len())];
                drop(bytes.splice(part, other.iter().copied()));
            }
            10 => {
                let twice = bytes[part.clone()].to_vec();
                drop(bytes.splice(part.start..part.start, twice));
            }
            _ if rng.below(8) == 0 => bytes.clear(),
            _ => bytes.push(rng.next() as u8),
        }
    }

    /// A cell that holds noise, or what another cell holds, of this line or of the one before.
    fn change_cell(&mut self, line: &mut Vec<u8>) {
        let rng = &mut self.rng;
        let mut cells: Vec<&[u8]> = line.split(|&byte| byte == b'|').collect();
        let others: Vec<&[u8]> = self.before.line.split(|&byte| byte == b'|').collect();
        let at = rng.below(cells.len());
        let noise = rng.noise(40);
        cells[at] = match rng.below(4) {
            0 => &noise,
            1 => rng.of(&cells),
            2 => rng.of(&others),
            _ => others.get(at).copied().unwrap_or(b""),
        };
        *line = cells.join(&b'|');
    }

    fn change_moment(&mut self, case: &mut Case) {
        let rng = &mut self.rng;
        let (day, micro) = (rng.next() as u32, rng.next());
        case.day = rng.of(&[0, 18991231, 19000101, 19000229, 20240229, 20250332, 99991231, 100000101, day]);
        case.micro = rng.of(&[0, 86_399_999_999, 86_400_000_000, u64::MAX, micro]);
    }

    /// Off, on, or on by a number that a host might not mean.
    fn change_flag(&mut self, case: &mut Case) {
        let rng = &mut self.rng;
        let any = rng.next() as u32;
        case.polish = rng.of(&[0, 0, 1, 1, 2, 1 << 8, 1 << 16, 1 << 31, u32::MAX, any]);
    }

    fn change_findings(&mut self, case: &mut Case) {
        let rng = &mut self.rng;
        let any = rng.below(300);
        let length = rng.of(&[0, 1, 137, 138, 139, 140, 141, 142, 200, any]);
        case.findings = (0..length).map(|_| rng.next() as u16).collect();
    }

    /// Good frames and 65 cells, noise within: nothing of it is refused before the rules are asked.
    fn fill_frames(&mut self, case: &mut Case) {
        let rng = &mut self.rng;
        for (list, (mark, width)) in case.lists.iter_mut().zip(FRAMES) {
            let rows = rng.below(21);
            *list = framed(rng, [&mark[..], &1u16.to_le_bytes(), &(rows as u32).to_le_bytes()].concat(), rows * width)
                .into();
        }
        if rng.below(2) == 0 {
            case.register = framed_register(rng);
        }
        let mut cells: Vec<Vec<u8>> = (0..65).map(|_| rng.noise(40)).collect();
        cells.iter_mut().flatten().filter(|byte| **byte == b'|').for_each(|byte| *byte = b'I');
        cells[0] = rng.of(&[b"NEW", b"NEW", b"CXL"]).to_vec();
        case.line = cells.join(&b'|');
    }

    /// Noise of any length for everything.
    fn make_noise(&mut self, case: &mut Case) {
        let rng = &mut self.rng;
        case.line = rng.noise(5000);
        for list in &mut case.lists {
            *list = rng.noise(200).into();
        }
        case.register = rng.noise(400);
        self.change_moment(case);
        self.change_flag(case);
        self.change_findings(case);
    }
}

/// Rows of so many bytes in all, behind a good head.
fn framed(rng: &mut Rng, mut head: Vec<u8>, rows: usize) -> Vec<u8> {
    head.extend((0..rows).map(|_| rng.next() as u8));
    head
}

/// Up to 20 used rows of noise, of either version, and perhaps room for more.
fn framed_register(rng: &mut Rng) -> Vec<u8> {
    let (version, rows) = (rng.of(&Version::ALL), rng.below(21));
    let mut register = framed(rng, version.head(rows as u32), rows * version.width());
    register.extend(rng.noise(200));
    register
}

/// Changes cell 1 or 4 by a byte or what they end with, or ends the line right behind cell 4 or before it.
fn change_front(rng: &mut Rng, line: &mut Vec<u8>) {
    let bars: Vec<usize> = (0..line.len()).filter(|&at| line[at] == b'|').collect();
    let [first, _, third, fourth, ..] = bars[..] else { return };
    match rng.below(6) {
        0 => line.insert(rng.of(&[0, first]), rng.of(b" S\0")),
        1 => line.insert(rng.of(&[third + 1, fourth]), rng.of(b" 0\0")),
        2 => line[third + 1] = 0,
        3 => drop(line.drain(third + 1..fourth.min(third + 2))),
        4 => line.truncate(fourth),
        _ => line.truncate(rng.of(&[0, first, third, third + 1])),
    }
}

/// Cell 4 of a line, where it is as long as an entity.
fn entity(line: &[u8]) -> Option<[u8; 20]> {
    line.split(|&byte| byte == b'|').nth(3)?.try_into().ok()
}

/// A record with any numbers in it, many of them near the top: of an entity that differs from one of these in a bit, or of
/// any; or free, as often of 64 times as is said.
fn any_record(rng: &mut Rng, entities: &[[u8; 20]], free: usize) -> Record {
    let noise: [u8; 20] = std::array::from_fn(|_| rng.next() as u8);
    let mut near = rng.of(entities);
    near[rng.below(20)] ^= 1 << rng.below(8);
    let mut record = Record::new(rng.of(&[near, noise, noise]));
    match rng.below(64) < free {
        true => record.entity[0] = 0,
        false => record.entity[0] |= u8::from(record.entity[0] == 0),
    }
    let Record { entity: _, accepted, cancelled, found, full, refused, codes } = &mut record;
    let clean = rng.below(4) == 0;
    for counter in [accepted, cancelled, found, full, refused].into_iter().chain(codes) {
        let any = rng.next() as u32;
        *counter = if clean { 0 } else { rng.of(&[any, u32::MAX, u32::MAX, u32::MAX - 1, 0]) };
    }
    record
}

/// Another verdict: with any answer, any count or any words; the bits of 1001 and 1004 are often not among them.
fn any_outcome(rng: &mut Rng, mut outcome: Outcome) -> Outcome {
    let (answer, count) = (rng.next() as u16, rng.next() as u16);
    outcome.answer = rng.of(&[outcome.answer, 0, 0, 0, 11, 11, 1 + answer % 12, answer]);
    outcome.count = rng.of(&[outcome.count, 0, 0, 1, count]);
    let many: [u64; 3] = std::array::from_fn(|_| rng.next());
    let few = many.map(|word| word & rng.next() & rng.next());
    outcome.words = rng.of(&[outcome.words, [0; 3], [u64::MAX; 3], many, few, [0, 0, many[2] << (COUNT - 128)]]);
    if rng.below(4) > 0 {
        for code in [1001, 1004] {
            outcome.words[place(code) / 64] &= !(1 << (place(code) % 64));
        }
    }
    outcome
}
