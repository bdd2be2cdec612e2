//! Days by the file, and the numbers that they come to by another way of counting.

use super::*;
use crate::codes::{place, CODES};
use crate::reference::Version;

fn made(seed: u64, days: usize) -> Vec<u8> {
    let mut bytes = Vec::new();
    run(seed, days, &mut bytes, io::sink()).unwrap();
    bytes
}

fn answered(days: &[u8]) -> Vec<u8> {
    let mut results = Vec::new();
    answer(days, &mut results).unwrap();
    results
}

/// Whether all is the same, the last line printed, and all that is printed.
fn compared(days: &[u8], results: &[u8]) -> (bool, String, String) {
    let mut output = Vec::new();
    let same = compare(days, results, &mut output).unwrap();
    let text = String::from_utf8(output).unwrap();
    (same, text.lines().last().unwrap().to_string(), text)
}

#[test]
fn the_same_seed_makes_the_same_days() {
    assert!(made(1, 2) == made(1, 2) && made(1, 2) != made(2, 2));
    // And a day does not depend on how many there are.
    let (one, two) = (made(5, 1), made(5, 2));
    assert!(two[12..].starts_with(&one[12..]));
}

#[test]
fn what_is_written_is_read() {
    let bytes = made(3, 4);
    let mut reader = Reader::new(&bytes[..]).unwrap();
    let mut again = Vec::new();
    let mut writer = Writer::new(&mut again, 4).unwrap();
    while let Some(entry) = reader.next_entry().unwrap() {
        match entry {
            Entry::Begin(kept) => writer.begin(&kept),
            Entry::Call(call, expected) => writer.call(&call, &expected),
            Entry::End(kept) => writer.end(&kept),
        }
        .unwrap();
    }
    writer.finish().unwrap();
    assert!(again == bytes);
}

#[test]
fn files_that_are_none() {
    let message = |bytes: &[u8]| answer(bytes, io::sink()).unwrap_err().to_string();
    assert_eq!(message(b"CASE\x01\0\0\0\0\0\0\0"), "not a file of days");
    assert_eq!(message(b"DAYS\x02\0\0\0\0\0\0\0"), "not a file of days");
    assert_eq!(message(b"DAYS\x01"), "the file of days ends in the middle of a record");
    assert_eq!(message(b"DAYS\x01\0\0\0\0\0\0\0\x06\0\0"), "the file of days ends in the middle of a record");
    assert_eq!(message(b"DAYS\x01\0\0\0\0\0\0\0\x09\0\0\0"), "a record of kind 9");
    assert_eq!(message(b"DAYS\x01\0\0\0\0\0\0\0\x08\0\0\0"), "the file of days ends in the middle of a record");
}

#[test]
fn any_byte_counts() {
    let days = made(7, 2);
    let results = answered(&days);
    let (same, last, _) = compared(&days, &results);
    assert!(same && last.starts_with("2 days, ") && last.ends_with(" calls, 0 differences"), "{last}");
    // Answer, count, a word, an entry; a register byte at the very end; both sides of a record's first byte.
    for at in [0, 2, 4, 28, results.len() - 1] {
        let mut changed = results.clone();
        changed[at] ^= 1;
        let (same, last, text) = compared(&days, &changed);
        assert!(!same && last.ends_with(", 1 differences") && text.contains("\n1 of the days differ\n"), "{text}");
    }
}

#[test]
fn results_that_end_early_or_go_on() {
    let days = made(7, 1);
    let results = answered(&days);
    let (same, _, text) = compared(&days, &results[..results.len() - 1]);
    assert!(!same && text.contains("end before the end of this day"));
    let (same, _, text) = compared(&days, &[&results[..], b"x"].concat());
    assert!(!same && text.contains("go on for 1 bytes"));
    let (same, _, text) = compared(&days, b"");
    assert!(!same && text.contains("end before this call") && text.contains("only counted"));
}

/// A day of one call, with what is expected of it.
fn small_day() -> (Kept, DayCall) {
    let register = [Version::One.head(0), vec![0; 74]].concat();
    let kept = Kept { register, records: vec![Record::blank(); 2], common: Record::blank() };
    let line = [b"NEW|R1||", &b"00000000000000000098"[..], &[b'|'; 61]].concat();
    let lists = crate::file::MARKS.map(|mark| [mark.as_bytes(), &[1, 0, 0, 0, 0, 0]].concat().into());
    let lent = kept.register.len();
    (kept, DayCall { line, lists, lent, day: 20250322, micro: 7, polish: 0, entries: 138, other: None })
}

#[test]
fn differences_are_told_in_words() {
    let (mut kept, mut call) = small_day();
    call.other = Some(Outcome { answer: 0, count: 1, words: [1, 0, 0] });
    let mut days = Vec::new();
    let mut writer = Writer::new(&mut days, 1).unwrap();
    writer.begin(&kept).unwrap();
    let expected = kept.call(&call);
    writer.call(&call, &expected).unwrap();
    writer.end(&kept).unwrap();
    writer.finish().unwrap();
    assert!(compared(&days, &answered(&days)).0);

    let mut ours = expected.clone();
    ours.noted.stuck = true;
    ours.findings[137] = 9;
    let told_of = |kept: &Kept| {
        let mut results = Vec::new();
        ours.write(&mut results).unwrap();
        kept.write(&mut results).unwrap();
        compared(&days, &results).2
    };
    let mut changed = kept.clone();
    changed.records[0].codes[place(23)] = 7;
    changed.common.full = 3;
    changed.register[82] = 5;
    let told = told_of(&changed);
    for part in [
        "day 1, call 1\n  line (89 bytes): NEW|R1||00000000000000000098|",
        "submitted on 20250322 at microsecond 7; Polish identifiers: 0; 138 findings entries; 83 bytes of the register\n",
        "  expected: answer 0 (judged), count 12, words ",
        "  findings entry 137: expected 42405, ours 9\n",
        "  noted with: answer 0 (judged), count 1, words 0000000000000001 0000000000000000 0000000000000000\n",
        "  of which the codes are [23]\n",
        "  noted: expected in a record of its own, with no counter at its top, ours in a record of its own, with a counter",
        "day 1, at its end\n  1 records differ; record 0: entity 00000000000000000098, code 23: expected 1, ours 7\n",
        "  the common record: entity \\u{0}\\u{0}",
        "refused by 11: expected 0, ours 3\n",
        "  register byte 82 (row 0, byte 73 of it): expected 0, ours 5\n",
        "\n1 of the days differ\n1 days, 1 calls, 2 differences\n",
    ] {
        assert!(told.contains(part), "{part}\n{told}");
    }
    changed = kept.clone();
    changed.records[1].entity = [b'x'; 20];
    assert!(told_of(&changed).contains("record 1: expected the entity \\u{0}"));
}

/// The numbers of an entity's lines, by counting them in the history.
fn counted(history: &[(Vec<u8>, Vec<u8>, Outcome)], wanted: impl Fn(&[u8]) -> bool) -> ([u32; 5], Vec<u32>) {
    let lines: Vec<_> = history.iter().filter(|(entity, ..)| wanted(entity)).collect();
    let times = |condition: &dyn Fn(&[u8], &Outcome) -> bool| {
        lines.iter().filter(|(_, line, outcome)| condition(line, outcome)).count() as u32
    };
    let clean = |outcome: &Outcome| (outcome.answer, outcome.count) == (0, 0);
    let headings = [
        times(&|line, outcome| clean(outcome) && line.starts_with(b"NEW|")),
        times(&|line, outcome| clean(outcome) && line.starts_with(b"CXL|")),
        times(&|_, outcome| outcome.answer == 0 && outcome.count > 0),
        times(&|_, outcome| outcome.answer == 11),
        times(&|_, outcome| (1..=10).contains(&outcome.answer)),
    ];
    let codes = CODES.iter().map(|code| times(&|_, outcome| crate::compare::codes_of(outcome.words).contains(code)));
    (headings, codes.collect())
}

/// Over a day from an empty table, with the verdicts that the lines got, each number is the count of such lines.
#[test]
fn numbers_are_those_of_the_history() {
    let mut tables = 0;
    for number in 0..16 {
        let mut recipe = DayRecipe::new(11, number);
        let mut kept = recipe.kept.clone();
        kept.records.fill(Record::blank());
        kept.common = Record::blank();
        let (mut history, mut order) = (Vec::new(), Vec::<Vec<u8>>::new());
        while let Some((mut call, _)) = recipe.next_call() {
            call.other = None;
            let CallAnswer { outcome, noted, .. } = kept.call(&call);
            let codes = crate::compare::codes_of(outcome.words);
            let kept_out = (1..=10).contains(&outcome.answer) || codes.contains(&1001) || codes.contains(&1004);
            let entity = call.line.split(|byte| *byte == b'|').nth(3).unwrap_or(b"").to_vec();
            let entity = if kept_out { Vec::new() } else { entity };
            if !kept_out && !order.contains(&entity) {
                order.push(entity.clone());
            }
            let place = order.iter().position(|other| *other == entity);
            let expected = place.is_none_or(|place| place >= kept.records.len().min(256));
            assert_eq!(noted, Noted { common: expected, stuck: false });
            history.push((entity, call.line.clone(), outcome));
        }
        let with_record = &order[..order.len().min(kept.records.len()).min(256)];
        for (record, entity) in kept.records.iter().zip(with_record) {
            assert_eq!(record.entity[..], entity[..]);
            let (headings, codes) = counted(&history, |other| other == entity);
            assert!(record.headings() == headings && record.codes[..] == codes);
        }
        assert!(kept.records[with_record.len()..].iter().all(|record| *record == Record::blank()));
        let (headings, codes) = counted(&history, |other| !with_record.iter().any(|entity| entity == other));
        assert!(kept.common.headings() == headings && kept.common.codes[..] == codes);
        let lines = kept.records.iter().chain([&kept.common]).flat_map(Record::headings).sum::<u32>();
        assert_eq!(lines as usize, history.len());
        tables += usize::from(with_record.len() > 254);
    }
    assert!(tables >= 6, "{tables}");
}

#[test]
fn days_reach_everything() {
    let coverage = coverage::of(&made(1, 20)[..]).unwrap();
    let mut told = Vec::new();
    coverage.print(&mut told).unwrap();
    let told = String::from_utf8(told).unwrap();
    assert!(coverage.headings.iter().flatten().all(|times| *times >= 50), "{told}");
    assert!(coverage.answers.iter().all(|times| *times >= 50), "{told}");
    // With its own verdict a line that has 1001 has no other code, and one without an entity has 1004.
    let [own, other] = coverage.reasons;
    assert!([own[0], own[1], own[2], own[5]].iter().chain(&other).all(|times| *times >= 50), "{told}");
    assert_eq!(own[3..5], [0, 0]);
    assert!(coverage.stuck.iter().all(|times| *times >= 100) && coverage.back >= 1_000, "{told}");
    assert!(coverage.taken[0] >= 1_000 && coverage.taken[1] >= 100, "{told}");
    assert!(coverage.over.iter().all(|days| *days >= 3) && coverage.entities[0] > 280, "{told}");
    assert!((15_000..25_000).contains(&coverage.calls), "{told}");
    for room in [0, 1, 2, 255, 256, 257, 300] {
        for zero in [false, true] {
            // A table without room is zero.
            assert!(coverage.rooms.contains(&(room, zero || room == 0)), "{room} {told}");
        }
    }
}
