//! The day's summary by firm: what the lines of each executing entity came to, counted in records that the host lends.

use super::{Lei, Outcome, Refusal};
use crate::codes::{place, COUNT};

/// Records behind so many are never touched.
pub const MOST_RECORDS: usize = 256;

/// The bytes of a record, as the host lends it.
pub const RECORD_BYTES: usize = 20 + 4 * (HEADINGS + COUNT);

/// How many headings there are.
const HEADINGS: usize = 5;

/// One firm's numbers, or those of the common record.
#[derive(Clone, Debug, PartialEq, Eq)]
#[repr(C)]
pub struct Record {
    /// The executing entity; the record is free while the first byte is 0.
    pub entity: Lei,
    /// Lines accepted as NEW.
    pub accepted: u32,
    /// Lines accepted as CXL.
    pub cancelled: u32,
    /// Lines judged with findings.
    pub found: u32,
    /// Lines refused by 11.
    pub full: u32,
    /// Lines refused by 1 to 10, which are the common record's.
    pub refused: u32,
    /// For each code in rising order the lines that have it.
    pub codes: [u32; COUNT],
}

/// What becomes of a line.
#[derive(Clone, Copy, Debug, PartialEq, Eq, PartialOrd, Ord)]
pub enum Heading {
    Accepted,
    Cancelled,
    Found,
    Full,
    Refused,
}

/// Where a line went.
#[derive(Clone, Copy, Debug, Default, PartialEq, Eq)]
#[repr(C)]
pub struct Noted {
    /// The common record took it.
    pub common: bool,
    /// A counter that should have risen was at its top, and stayed there.
    pub stuck: bool,
}

impl Record {
    /// A record of this entity that has counted nothing.
    pub fn new(entity: Lei) -> Record {
        Record { entity, accepted: 0, cancelled: 0, found: 0, full: 0, refused: 0, codes: [0; COUNT] }
    }

    /// A record of nobody: a free one, or the common one to begin with.
    pub fn blank() -> Record {
        Record::new([0; 20])
    }

    pub fn is_free(&self) -> bool {
        self.entity[0] == 0
    }

    /// The counts of lines, in the order of the headings.
    pub fn headings(&self) -> [u32; HEADINGS] {
        [self.accepted, self.cancelled, self.found, self.full, self.refused]
    }

    fn heading(&mut self, heading: Heading) -> &mut u32 {
        match heading {
            Heading::Accepted => &mut self.accepted,
            Heading::Cancelled => &mut self.cancelled,
            Heading::Found => &mut self.found,
            Heading::Full => &mut self.full,
            Heading::Refused => &mut self.refused,
        }
    }

    /// Counts a line, and says whether a counter was at its top.
    fn count(&mut self, heading: Heading, words: &[u64; 3]) -> bool {
        let mut stuck = !raise(self.heading(heading));
        for (bit, counter) in self.codes.iter_mut().enumerate() {
            if has_bit(words, bit) {
                stuck |= !raise(counter);
            }
        }
        stuck
    }

    pub fn to_bytes(&self) -> Vec<u8> {
        let counters = self.headings().into_iter().chain(self.codes);
        self.entity.into_iter().chain(counters.flat_map(u32::to_le_bytes)).collect()
    }

    pub fn from_bytes(bytes: &[u8; RECORD_BYTES]) -> Record {
        let (entity, counters) = bytes.split_first_chunk().expect("an entity");
        let mut counters = counters.chunks_exact(4).map(|four| u32::from_le_bytes(four.try_into().expect("4 bytes")));
        let mut next = || counters.next().expect("a counter");
        Record {
            entity: *entity,
            accepted: next(),
            cancelled: next(),
            found: next(),
            full: next(),
            refused: next(),
            codes: std::array::from_fn(|_| next()),
        }
    }
}

impl Heading {
    pub fn of(line: &[u8], outcome: &Outcome) -> Heading {
        const FULL: u16 = Refusal::RegisterFull as u16;
        match outcome {
            Outcome { answer: FULL, .. } => Heading::Full,
            Outcome { answer: 1.., .. } => Heading::Refused,
            Outcome { count: 1.., .. } => Heading::Found,
            _ if cell(line, 1) == Some(b"NEW") => Heading::Accepted,
            _ => Heading::Cancelled,
        }
    }
}

/// One more, unless the counter is at its top.
fn raise(counter: &mut u32) -> bool {
    let risen = counter.checked_add(1);
    *counter = risen.unwrap_or(u32::MAX);
    risen.is_some()
}

fn has_bit(words: &[u64; 3], bit: usize) -> bool {
    words[bit / 64] >> (bit % 64) & 1 == 1
}

/// A cell of a line by its number, whatever the others are; nothing where there are fewer.
fn cell(line: &[u8], number: usize) -> Option<&[u8]> {
    line.split(|&byte| byte == b'|').nth(number - 1)
}

/// The entity under which a line is counted: cell 4, where the line was judged or found no room and both cell 1 and
/// cell 4 are well formed. Nothing where the line is the common record's.
fn entity_of(line: &[u8], outcome: &Outcome) -> Option<Lei> {
    let kept = [0, Refusal::RegisterFull as u16].contains(&outcome.answer);
    let formed = [1001, 1004].iter().all(|code| !has_bit(&outcome.words, place(*code)));
    if !kept || !formed {
        return None;
    }
    let entity: Lei = cell(line, 4)?.try_into().ok()?;
    (entity[0] != 0).then_some(entity)
}

/// The record of an entity: its own or, before that, the first that is free, which it takes.
fn record_of(records: &mut [Record], entity: Lei) -> Option<&mut Record> {
    let record = records.iter_mut().take(MOST_RECORDS).find(|record| record.is_free() || record.entity == entity)?;
    if record.is_free() {
        *record = Record::new(entity);
    }
    Some(record)
}

/// Notes one line with what came of it, in the record of its entity or in the common one.
pub fn note(records: &mut [Record], common: &mut Record, line: &[u8], outcome: &Outcome) -> Noted {
    let heading = Heading::of(line, outcome);
    match entity_of(line, outcome).and_then(|entity| record_of(records, entity)) {
        Some(record) => Noted { common: false, stuck: record.count(heading, &outcome.words) },
        None => Noted { common: true, stuck: common.count(heading, &outcome.words) },
    }
}

#[cfg(test)]
mod tests {
    use super::*;
    use crate::recipe::rng::Rng;

    const E: &Lei = b"00000000000000000098";
    const F: &Lei = b"00000000000000000195";
    const TOP: u32 = u32::MAX;

    fn judged(codes: &[u16]) -> Outcome {
        let mut words = [0; 3];
        for code in codes {
            words[place(*code) / 64] |= 1 << (place(*code) % 64);
        }
        Outcome { answer: 0, count: codes.len() as u16, words }
    }

    fn refused(answer: u16) -> Outcome {
        Outcome { answer, ..Outcome::default() }
    }

    fn line(first: &str, entity: &[u8]) -> Vec<u8> {
        [first.as_bytes(), b"|R1||", entity, &[b'|'; 61]].concat()
    }

    /// A table with a common record.
    #[derive(Clone, Debug, PartialEq)]
    struct Table {
        records: Vec<Record>,
        common: Record,
    }

    impl Table {
        fn new(room: usize) -> Table {
            Table { records: vec![Record::blank(); room], common: Record::blank() }
        }

        fn note(&mut self, line: &[u8], outcome: Outcome) -> Noted {
            note(&mut self.records, &mut self.common, line, &outcome)
        }

        /// Notes a line that must go to this record or, where none is said, to the common one.
        fn must(&mut self, line: &[u8], outcome: Outcome, record: Option<usize>) {
            let mut after = self.clone();
            let noted = after.note(line, outcome);
            assert_eq!(noted, Noted { common: record.is_none(), stuck: false }, "{}", line.escape_ascii());
            let (old, new) = match record {
                Some(number) => (&mut self.records[number], &after.records[number]),
                None => (&mut self.common, &after.common),
            };
            let lines = |record: &Record| record.headings().iter().sum::<u32>();
            assert_eq!(lines(new), lines(old) + 1);
            // But for that record all is as it was.
            old.clone_from(new);
            assert_eq!(*self, after);
        }
    }

    /// The n-th of many entities.
    fn entity(number: usize) -> Lei {
        format!("{number:018}00").as_bytes().try_into().unwrap()
    }

    #[test]
    fn a_record_has_604_bytes() {
        assert_eq!((std::mem::size_of::<Record>(), std::mem::align_of::<Record>(), RECORD_BYTES), (604, 4, 604));
        assert_eq!(std::mem::size_of::<Noted>(), 2);
        let bytes: [u8; RECORD_BYTES] = std::array::from_fn(|at| (at * 7) as u8);
        assert_eq!(Record::from_bytes(&bytes).to_bytes(), bytes);
        let mut record = Record::new(*E);
        (record.accepted, record.refused, record.codes[140]) = (0x0403_0201, 9, TOP);
        let bytes = record.to_bytes();
        assert_eq!((&bytes[..20], &bytes[20..24], bytes[36]), (&E[..], &[1, 2, 3, 4][..], 9));
        assert_eq!(bytes[600..], [255; 4]);
    }

    #[test]
    fn headings() {
        let of = |first: &str, outcome| Heading::of(&line(first, E), &outcome);
        assert_eq!(of("NEW", judged(&[])), Heading::Accepted);
        for other in ["CXL", "", "NE", "NEWS", "new", " NEW"] {
            assert_eq!(of(other, judged(&[])), Heading::Cancelled);
        }
        assert_eq!(Heading::of(b"NEW", &judged(&[])), Heading::Accepted);
        assert_eq!(Heading::of(b"", &judged(&[])), Heading::Cancelled);
        assert_eq!(Heading::of(b"|NEW", &judged(&[])), Heading::Cancelled);
        for first in ["NEW", "CXL", "x"] {
            assert_eq!(of(first, judged(&[23])), Heading::Found);
            assert_eq!(of(first, refused(11)), Heading::Full);
            for answer in (1..=10).chain([12, 13, 255, 256, 267, 65535]) {
                assert_eq!(of(first, refused(answer)), Heading::Refused);
            }
        }
        // The count decides, not the words; and before it the answer.
        assert_eq!(of("NEW", Outcome { count: 0, ..judged(&[23]) }), Heading::Accepted);
        assert_eq!(of("NEW", Outcome { count: 256, ..judged(&[]) }), Heading::Found);
        assert_eq!(of("NEW", Outcome { answer: 11, ..judged(&[23]) }), Heading::Full);
        assert_eq!(of("NEW", Outcome { answer: 1, ..judged(&[23]) }), Heading::Refused);
    }

    #[test]
    fn each_entity_has_a_record_in_order_of_appearance() {
        let mut table = Table::new(3);
        table.must(&line("NEW", F), judged(&[]), Some(0));
        table.must(&line("NEW", E), judged(&[]), Some(1));
        table.must(&line("CXL", F), judged(&[]), Some(0));
        table.must(&line("NEW", F), judged(&[23, 40, 3309]), Some(0));
        table.must(&line("NEW", F), judged(&[40]), Some(0));
        table.must(&line("NEW", F), refused(11), Some(0));
        let [first, second, third] = &table.records[..] else { unreachable!() };
        assert_eq!((first.entity, first.headings()), (*F, [1, 1, 2, 1, 0]));
        assert_eq!((second.entity, second.headings()), (*E, [1, 0, 0, 0, 0]));
        assert_eq!(*third, Record::blank());
        for (code, times) in [(23, 1), (40, 2), (3309, 1), (24, 0), (3308, 0)] {
            assert_eq!(first.codes[place(code)], times, "{code}");
        }
        assert_eq!(first.codes.iter().sum::<u32>(), 4);
        assert_eq!(table.common, Record::blank());
    }

    #[test]
    fn a_refused_line_is_common() {
        let mut table = Table::new(2);
        table.must(&line("NEW", E), refused(11), Some(0));
        for answer in (1..=10).chain([12, 13, 256, 267, 65535]) {
            table.must(&line("NEW", E), refused(answer), None);
        }
        assert_eq!(table.common.headings(), [0, 0, 0, 0, 15]);
        assert_eq!(table.records[0].headings(), [0, 0, 0, 1, 0]);
    }

    #[test]
    fn a_line_with_1001_or_1004_is_common() {
        let mut table = Table::new(2);
        table.must(&line("x", E), judged(&[1001]), None);
        table.must(&line("NEW", E), judged(&[1004]), None);
        table.must(&line("NEW", E), judged(&[1001, 1004]), None);
        table.must(&line("NEW", E), judged(&[23, 1004, 1005]), None);
        assert_eq!((table.common.headings(), table.common.entity), ([0, 0, 4, 0, 0], [0; 20]));
        assert_eq!(table.common.codes[place(1001)..][..5], [2, 0, 0, 3, 1]);
        for code in [570, 1002, 1003, 1005, 1065, 3307] {
            table.must(&line("NEW", E), judged(&[code]), Some(0));
        }
        // The bits decide, whatever answer and count are.
        table.must(&line("NEW", E), Outcome { count: 0, ..judged(&[1004]) }, None);
        table.must(&line("NEW", E), Outcome { answer: 11, ..judged(&[1001]) }, None);
        assert_eq!(table.common.headings(), [1, 0, 4, 1, 0]);
    }

    #[test]
    fn a_line_without_an_entity_is_common() {
        let mut table = Table::new(2);
        for entity in [&b""[..], &E[..19], &[&E[..], b"0"].concat(), b"\x000000000000000000098", &[0; 20]] {
            table.must(&line("NEW", entity), judged(&[]), None);
        }
        for short in [&b""[..], b"NEW", b"NEW||", &[b"||", &E[..]].concat(), &E[..], b"|||"] {
            table.must(short, judged(&[]), None);
        }
        // Any other 20 bytes are one, with or without a bar behind them.
        table.must(&[b"|||", &E[..]].concat(), judged(&[]), Some(0));
        table.must(&[b"|||", &E[..], b"|"].concat(), judged(&[]), Some(0));
        table.must(&line("NEW", b"\x01\0\0\0 \n\xff0000000000000"), judged(&[]), Some(1));
        table.must(&line("NEW", b"\x01\0\0\0 \n\xff0000000000000"), refused(11), Some(1));
        assert_eq!(table.records[0].headings(), [0, 2, 0, 0, 0]);
    }

    #[test]
    fn entities_that_differ_in_a_byte() {
        let mut table = Table::new(21);
        for at in 0..20 {
            let mut other = *E;
            other[at] ^= 1;
            table.must(&line("NEW", &other), judged(&[]), Some(at));
        }
        table.must(&line("NEW", E), judged(&[]), Some(20));
    }

    #[test]
    fn records_from_256_on_are_never_touched() {
        for room in [0, 1, 2, 255, 256, 257, 300] {
            let mut table = Table::new(room);
            let most = room.min(256);
            for number in (0..300).chain((0..300).rev()) {
                let record = (number < most).then_some(number);
                table.must(&line("NEW", &entity(number)), judged(&[41]), record);
            }
            assert!(table.records[..most].iter().all(|record| record.found == 2 && record.codes[place(41)] == 2));
            assert!(table.records[most..].iter().all(|record| *record == Record::blank()));
            assert_eq!(table.common.found as usize, 2 * (300 - most));
            assert_eq!(table.common.codes[place(41)] as usize, 2 * (300 - most));
        }
    }

    #[test]
    fn a_record_behind_256_is_not_looked_at() {
        let mut table =
            Table { records: (0..257).map(|number| Record::new(entity(number))).collect(), ..Table::new(0) };
        table.must(&line("NEW", &entity(255)), judged(&[]), Some(255));
        table.must(&line("NEW", &entity(256)), judged(&[]), None);
        table.records[255].entity[0] = 0;
        assert_eq!(table.note(&line("NEW", &entity(256)), judged(&[])), Noted::default());
        assert_eq!((table.records[255].entity, table.records[255].accepted), (entity(256), 1));
    }

    /// A record of which every counter is this.
    fn filled(entity: Lei, counter: u32) -> Record {
        let codes = [counter; COUNT];
        Record { entity, accepted: counter, cancelled: counter, found: counter, full: counter, refused: counter, codes }
    }

    #[test]
    fn a_free_record_is_cleared_when_it_is_taken() {
        for counter in [1, 7, TOP - 1, TOP] {
            let mut free = filled(*F, counter);
            free.entity[0] = 0;
            let mut table = Table { records: vec![free; 2], ..Table::new(0) };
            let untouched = table.records[1].clone();
            assert_eq!(table.note(&line("CXL", E), judged(&[3308])), Noted::default());
            let mut expected = Record::new(*E);
            (expected.found, expected.codes[place(3308)]) = (1, 1);
            assert_eq!(table.records, [expected, untouched]);
        }
    }

    #[test]
    fn the_first_record_that_fits_is_the_one() {
        // A free one before the entity's own, and the same entity twice.
        let of = |entity: &Lei| filled(*entity, 5);
        let mut table = Table { records: vec![of(F), of(&[0; 20]), of(E), of(E)], ..Table::new(0) };
        table.note(&line("NEW", F), judged(&[]));
        table.note(&line("NEW", E), judged(&[]));
        assert_eq!(table.records[0], Record { accepted: 6, ..of(F) });
        assert_eq!(table.records[1], Record { accepted: 1, ..Record::new(*E) });
        assert_eq!(table.records[2..], [of(E), of(E)]);
        table.records[1] = of(&[1; 20]);
        table.note(&line("NEW", E), judged(&[]));
        assert_eq!(table.records[2..], [Record { accepted: 6, ..of(E) }, of(E)]);
    }

    #[test]
    fn a_counter_at_its_top_stays() {
        for common in [false, true] {
            let refusal = refused(if common { 10 } else { 11 });
            for outcome in [judged(&[]), judged(&[23, 1002, 3309]), refusal] {
                for counter in [TOP - 1, TOP] {
                    let mut table = Table { records: vec![filled(*E, counter)], common: filled(*F, counter) };
                    let entity = if common { &b""[..] } else { E };
                    let noted = table.note(&line("NEW", entity), outcome);
                    assert_eq!(noted, Noted { common, stuck: counter == TOP });
                    let mut expected = Table { records: vec![filled(*E, counter)], common: filled(*F, counter) };
                    let record = if common { &mut expected.common } else { &mut expected.records[0] };
                    *record.heading(Heading::of(b"NEW", &outcome)) = TOP;
                    (0..COUNT).filter(|bit| has_bit(&outcome.words, *bit)).for_each(|bit| record.codes[bit] = TOP);
                    assert_eq!(table, expected);
                }
            }
        }
    }

    #[test]
    fn the_others_rise_beside_one_at_its_top() {
        let outcome = judged(&[23, 24, 25]);
        for stuck in 0..=3 {
            let mut table = Table { records: vec![Record::new(*E)], ..Table::new(0) };
            let record = &mut table.records[0];
            match stuck {
                0 => record.found = TOP,
                code => record.codes[code - 1] = TOP,
            }
            assert_eq!(table.note(&line("NEW", E), outcome), Noted { common: false, stuck: true });
            let record = &table.records[0];
            let counters = [record.found, record.codes[0], record.codes[1], record.codes[2]];
            let expected: Vec<u32> = (0..4).map(|at| if at == stuck { TOP } else { 1 }).collect();
            assert_eq!(counters[..], expected);
        }
        // One that is not to rise may be there.
        let mut table = Table { records: vec![filled(*E, TOP)], ..Table::new(0) };
        (table.records[0].found, table.records[0].codes[0]) = (0, 0);
        assert_eq!(table.note(&line("NEW", E), judged(&[23])), Noted::default());
    }

    #[test]
    fn codes_count_whatever_answer_and_count_are() {
        let words = [u64::MAX, !(1 << 9 | 1 << 12), u64::MAX];
        assert!((0..128).all(|bit| has_bit(&words, bit) == (bit != place(1001) && bit != place(1004))));
        for (answer, count) in [(0, 0), (0, 65535), (11, 0), (11, 3)] {
            let mut table = Table::new(1);
            table.must(&line("CXL", E), Outcome { answer, count, words }, Some(0));
            let codes = &table.records[0].codes;
            assert!((0..COUNT).all(|bit| codes[bit] == u32::from(bit != place(1001) && bit != place(1004))));
        }
        for answer in [1, 10, 12, 65535] {
            let mut table = Table::new(1);
            table.must(&line("CXL", E), Outcome { answer, count: 1, words }, None);
            assert_eq!((table.common.refused, table.common.codes[140], table.common.codes.iter().sum()), (1, 1, 139));
        }
        // Bits behind the last code mean nothing.
        let mut table = Table::new(1);
        table.must(&line("CXL", E), Outcome { words: [0, 0, !0 << 13], ..judged(&[]) }, Some(0));
        assert_eq!(table.records[0], Record { cancelled: 1, ..Record::new(*E) });
    }

    #[test]
    fn the_common_record_may_hold_anything() {
        for entity in [[0; 20], [7; 20], *E] {
            let mut table = Table { common: filled(entity, 9), ..Table::new(1) };
            table.must(&line("NEW", E), judged(&[60]), Some(0));
            table.must(&line("NEW", F), judged(&[60]), None);
            let mut expected = filled(entity, 9);
            (expected.found, expected.codes[place(60)]) = (10, 10);
            assert_eq!(table.common, expected);
        }
    }

    /// What noting makes of the bytes of a table with the common record behind it.
    fn by_bytes(table: &mut [u8], line: &[u8], outcome: &Outcome) -> Noted {
        let last = table.len() - RECORD_BYTES;
        let cells: Vec<&[u8]> = line.split(|byte| *byte == b'|').collect();
        let bits = |from: usize, to: usize| (from..to).filter(|bit| outcome.words[bit / 64] & 1 << (bit % 64) != 0);
        let named = cells.get(3).is_some_and(|cell| cell.len() == 20 && cell[0] != 0);
        let mut at = last;
        if (outcome.answer == 0 || outcome.answer == 11) && bits(73, 77).all(|bit| bit == 74 || bit == 75) && named {
            let used = (0..last.min(256 * RECORD_BYTES)).step_by(RECORD_BYTES);
            at = used.into_iter().find(|&at| table[at] == 0 || table[at..at + 20] == *cells[3]).unwrap_or(last);
        }
        if at < last && table[at] == 0 {
            table[at..at + RECORD_BYTES].fill(0);
            table[at..at + 20].copy_from_slice(cells[3]);
        }
        let heading = match (outcome.answer, outcome.count) {
            (0, 0) => usize::from(cells[0] != b"NEW"),
            (0, _) => 2,
            (11, _) => 3,
            _ => 4,
        };
        let mut noted = Noted { common: at == last, stuck: false };
        for place in [heading].into_iter().chain(bits(0, 141).map(|bit| 5 + bit)) {
            let counter = &mut table[at + 20 + 4 * place..][..4];
            if counter == [255; 4] {
                noted.stuck = true;
                continue;
            }
            for byte in counter {
                *byte = byte.wrapping_add(1);
                if *byte != 0 {
                    break;
                }
            }
        }
        noted
    }

    #[test]
    fn any_bytes_are_answered() {
        let mut rng = Rng::new(1);
        let mut seen = [0; 3];
        for _ in 0..5_000 {
            let any = rng.below(300);
            let room = rng.of(&[0, 1, 2, 3, 3, 3, any % 20, any]);
            // Bytes of few kinds, so that names come twice, counters are at their ends and entities in their records.
            let kinds =
                rng.of(&[&[0, 255][..], &[255, 255, 255, 254, b'A'], b"AAAAAAAAAAAAAAAAB", &[0, 1, b'|', b'N']]);
            let bytes = rng.text(kinds, (room + 1) * RECORD_BYTES);
            let some = rng.below(room + 1) * RECORD_BYTES;
            let name = if rng.one_in(2) { bytes[some..some + 20].to_vec() } else { rng.text(kinds, 20) };
            let before = rng.of(&[&b"NEW|R||"[..], b"CXL|||", b"|||", b"NEW|||", b"||", b"||||", b"NEWS|||"]);
            let line = [before, &name, rng.of(&[&b"|"[..], b"", b"A|", b"||"])].concat();
            let many: [u64; 3] = std::array::from_fn(|_| rng.next());
            let formed = [many[0], many[1] & !(1 << 9 | 1 << 12), many[2]];
            let words = rng.of(&[[0; 3], [0; 3], [3, 0, 1 << 13], formed, formed, many]);
            let refusal = rng.between(1, 12) as u16;
            let outcome = Outcome { answer: rng.of(&[0, 0, 0, 11, refusal]), count: rng.of(&[0, 1, 256]), words };

            let mut expected = bytes.clone();
            let noted = by_bytes(&mut expected, &line, &outcome);
            let mut records: Vec<Record> =
                bytes.chunks_exact(RECORD_BYTES).map(|bytes| Record::from_bytes(bytes.try_into().unwrap())).collect();
            let mut common = records.pop().unwrap();
            assert_eq!(note(&mut records, &mut common, &line, &outcome), noted, "{}", line.escape_ascii());
            assert!(records.iter().chain([&common]).flat_map(Record::to_bytes).eq(expected));
            let counts = [!noted.common, noted.common, noted.stuck];
            seen.iter_mut().zip(counts).for_each(|(times, counts)| *times += usize::from(counts));
        }
        assert!(seen.iter().all(|times| *times > 500), "{seen:?}");
    }
}
