//! Whole calls, by hand: the paper's examples and what is easily got wrong.

use super::*;

/// The LEI of the paper's examples.
const E: &str = "00000000000000000098";
const F: &str = "00000000000000000195";
const FILLER: u16 = 0xA5A5;

fn list(mark: &str, rows: &[Vec<u8>]) -> Vec<u8> {
    [mark.as_bytes(), &1u16.to_le_bytes(), &(rows.len() as u32).to_le_bytes(), &rows.concat()].concat()
}

fn days(from: u32, to: u32) -> Vec<u8> {
    [from.to_le_bytes(), to.to_le_bytes()].concat()
}

/// A row: key, what follows it, two days.
fn row(key: &str, more: &[u8], from: u32, to: u32) -> Vec<u8> {
    [key.as_bytes(), more, &days(from, to)].concat()
}

/// A whole call that can be changed piece by piece.
#[derive(Clone)]
struct Sample {
    cells: Vec<String>,
    lei: Vec<u8>,
    cty: Vec<u8>,
    ccy: Vec<u8>,
    ven: Vec<u8>,
    ins: Vec<u8>,
    register: Vec<u8>,
    day: u32,
    micro: u64,
    polish: u32,
    findings: Vec<u16>,
}

/// A share sold on a German exchange, without a finding.
fn clean() -> Sample {
    let mut sample = Sample {
        cells: vec![String::new(); 65],
        lei: list("LEI", &[row(E, &[1, 1], 20000101, 0), row(F, &[2, 1], 20000101, 0)]),
        cty: list("CTY", &[row("DE", b"", 19000101, 99991231)]),
        ccy: list("CCY", &[row("EUR", &[1], 19990101, 99991231), row("DEM", &[2], 19480620, 20020228)]),
        ven: list("VEN", &[row("XETR", &[1], 20000101, 99991231), row("TGAT", &[2], 20000101, 99991231)]),
        ins: list("INS", &[row("AA0000000006", b"ESVUFR", 20000101, 99991231)]),
        register: vec![0; 9 + 4 * 74],
        day: 20250322,
        micro: 43_200_000_000,
        polish: 0,
        findings: vec![FILLER; 145],
    };
    sample.register[..5].copy_from_slice(b"TRN\x01\x00");
    for (cell, value) in [
        (1, "NEW"),
        (2, "R1"),
        (4, E),
        (5, "TRUE"),
        (6, E),
        (7, "CONCAT:DE19800101JOHN#SMITH"),
        (11, "1980-01-01"),
        (16, "MIC:XETR"),
        (25, "FALSE"),
        (28, "2025-03-21T09:00:00Z"),
        (29, "AOTC"),
        (30, "UNT:5."),
        (33, "MV:12.5"),
        (34, "EUR"),
        (36, "XETR"),
        (37, "DE"),
        (41, "AA0000000006"),
        (59, "NORE"),
        (65, "FALSE"),
    ] {
        sample.set(cell, value);
    }
    sample
}

impl Sample {
    fn set(&mut self, cell: usize, value: &str) -> &mut Sample {
        self.cells[cell - 1] = value.to_string();
        self
    }

    fn with(&self, cells: &[(usize, &str)]) -> Sample {
        let mut sample = self.clone();
        for (cell, value) in cells {
            sample.set(*cell, value);
        }
        sample
    }

    /// Judges the call as it stands, or with another line; the register and the findings stay changed.
    fn judge_line(&mut self, line: &[u8]) -> Outcome {
        judge(Call {
            line,
            lei: &self.lei,
            cty: &self.cty,
            ccy: &self.ccy,
            ven: &self.ven,
            ins: &self.ins,
            register: &mut self.register,
            day: self.day,
            micro: self.micro,
            polish: self.polish,
            findings: &mut self.findings,
        })
    }

    fn judge(&mut self) -> Outcome {
        let line = self.cells.join("|");
        self.judge_line(line.as_bytes())
    }

    /// The codes of a call that is not refused; the words, the count and the list have to agree.
    fn codes(&self) -> Vec<u16> {
        let mut sample = self.clone();
        let outcome = sample.judge();
        assert_eq!(outcome.answer, 0);
        let codes = sample.findings[..usize::from(outcome.count)].to_vec();
        let mut words = [0; 3];
        for code in &codes {
            let place = crate::codes::CODES.iter().position(|c| c == code).unwrap();
            words[place / 64] |= 1 << (place % 64);
        }
        assert_eq!(outcome.words, words);
        assert!(sample.findings[codes.len()..].iter().all(|entry| *entry == FILLER));
        assert!(codes.is_empty() || sample.register == self.register);
        codes
    }

    /// A refusal, which changes nothing.
    fn refused(&self) -> u16 {
        let mut sample = self.clone();
        let outcome = sample.judge();
        assert_ne!(outcome.answer, 0);
        assert_eq!(outcome, Outcome { answer: outcome.answer, count: 0, words: [0; 3] });
        assert_eq!((&sample.register, &sample.findings), (&self.register, &self.findings));
        outcome.answer
    }
}

#[test]
fn a_clean_line_is_entered() {
    let mut sample = clean();
    let before = sample.register.clone();
    assert_eq!(sample.judge(), Outcome::default());
    assert_eq!(sample.register[5..9], 1u32.to_le_bytes());
    assert_eq!(sample.register[9..29], *E.as_bytes());
    assert_eq!(sample.register[29..32], *b"\x02R1");
    assert!(sample.register[32..82].iter().all(|byte| *byte == 0));
    assert_eq!(sample.register[82], 1);
    assert_eq!(sample.register[83..], before[83..]);
    assert_eq!(sample.findings, [FILLER; 145]);
}

#[test]
fn refusals_come_in_order() {
    let mut sample = clean();
    sample.register.truncate(9);
    assert_eq!(sample.refused(), 11);
    sample.set(65, "FALSE|");
    assert_eq!(sample.refused(), 10);
    sample.set(42, &"x".repeat(4097));
    assert_eq!(sample.refused(), 9);
    sample.findings.truncate(137);
    assert_eq!(sample.refused(), 8);
    sample.micro = 86_400_000_000;
    assert_eq!(sample.refused(), 7);
    sample.register[5] = 1;
    assert_eq!(sample.refused(), 6);
    sample.ins.push(0);
    assert_eq!(sample.refused(), 5);
    sample.ven[3] = 2;
    assert_eq!(sample.refused(), 4);
    sample.ccy.truncate(8);
    assert_eq!(sample.refused(), 3);
    sample.cty[5] = 2;
    assert_eq!(sample.refused(), 2);
    sample.lei[0] = b'l';
    assert_eq!(sample.refused(), 1);
}

#[test]
fn refusals_at_their_edges() {
    let judged = |change: fn(&mut Sample)| {
        let mut sample = clean();
        change(&mut sample);
        sample.judge().answer
    };
    assert_eq!(judged(|sample| sample.findings.truncate(138)), 0);
    assert_eq!(judged(|sample| sample.findings.truncate(137)), 8);
    assert_eq!(judged(|sample| sample.micro = 86_399_999_999), 0);
    for day in [20230229, 18991231, 100000101, 20250332, 0, u32::MAX] {
        let mut sample = clean();
        sample.day = day;
        assert_eq!(sample.refused(), 7);
    }
    // A count whose product overflows 32 bits to the right length.
    assert_eq!(judged(|sample| sample.lei[8] = 0x80), 1);
    assert_eq!(judged(|sample| sample.register[5] = 4), 11);
    assert_eq!(judged(|sample| sample.register[5] = 5), 6);
    assert_eq!(judged(|sample| sample.register.truncate(9 + 73)), 11);
    let mut sample = clean();
    let length = sample.cells.join("|").len();
    sample.set(42, &"x".repeat(4096 - length));
    assert_eq!(sample.codes(), [1042]);
    sample.set(42, &"x".repeat(4097 - length));
    assert_eq!(sample.refused(), 9);
    assert_eq!(clean().judge_line(b"").answer, 10);
    assert_eq!(clean().judge_line(&[b'|'; 63]).answer, 10);
    assert_eq!(clean().judge_line(&[b'|'; 65]).answer, 10);
    assert_eq!(clean().judge_line(&[b'|'; 64]), Outcome { answer: 0, count: 1, words: [0, 1 << 9, 0] });
}

#[test]
fn the_place_of_each_code() {
    // 023 is the lowest bit of the first word; 1001 is the 74th code, 1065 the last but for Polish identifiers.
    let mut sample = clean();
    sample.judge();
    assert_eq!(sample.judge().words, [1, 0, 0]);
    assert_eq!(clean().with(&[(65, "")]).judge().words, [0, 0, 1 << 9]);
    assert_eq!(clean().with(&[(47, "OTHR:{0:DE0005557507}")]).judge().words, [1 << 52, 0, 0]);
    assert_eq!(clean().with(&[(1, "new")]).codes(), [1001]);
}

#[test]
fn a_pair_through_its_life() {
    let mut sample = clean();
    let step = |sample: &mut Sample, status: &str| {
        sample.set(1, status);
        let outcome = sample.judge();
        assert_eq!(outcome.answer, 0);
        let codes = sample.findings[..usize::from(outcome.count)].to_vec();
        (codes, sample.register[5], sample.register[82])
    };
    assert_eq!(step(&mut sample, "CXL"), (vec![24], 0, 0));
    assert_eq!(step(&mut sample, "NEW"), (vec![], 1, 1));
    assert_eq!(step(&mut sample, "NEW"), (vec![23], 1, 1));
    assert_eq!(step(&mut sample, "CXL"), (vec![], 1, 2));
    assert_eq!(step(&mut sample, "CXL"), (vec![25], 1, 2));
    // A rejected line does not bring the pair back; a clean one does, in the same row.
    sample.set(65, "");
    assert_eq!(step(&mut sample, "NEW"), (vec![1065], 1, 2));
    sample.set(65, "TRUE");
    assert_eq!(step(&mut sample, "NEW"), (vec![], 1, 1));
    // Another reference of the same start is another pair.
    sample.set(2, "R10");
    assert_eq!(step(&mut sample, "NEW"), (vec![], 2, 1));
}

#[test]
fn the_first_row_of_a_pair_decides() {
    let mut sample = clean();
    sample.judge();
    let row = sample.register[9..83].to_vec();
    sample.register[83..157].copy_from_slice(&row);
    sample.register[5] = 2;
    sample.register[82] = 7;
    assert!(sample.with(&[(1, "CXL")]).codes() == [25]);
    sample.judge();
    assert_eq!((sample.register[5], sample.register[82], sample.register[156]), (2, 1, 1));
    // Behind the used rows nothing counts.
    sample.register[5] = 0;
    assert_eq!(sample.with(&[(1, "CXL")]).codes(), [24]);
}

/// The register of a sample made anew: of this version, so many bytes long, no row used, the rest filled.
fn empty_register(version: Version, length: usize) -> Vec<u8> {
    let mut register = version.head(0);
    register.resize(length, 0xEE);
    register
}

#[test]
fn accepted_lines_write_their_day_in_version_2() {
    let mut sample = clean();
    sample.register = empty_register(Version::Two, 9 + 2 * 78 + 5);
    let step = |sample: &mut Sample, status: &str, day: u32| {
        sample.set(1, status);
        sample.day = day;
        let before = sample.register.clone();
        let outcome = sample.judge();
        assert!(outcome.answer == 0 && (outcome.count == 0 || sample.register == before));
        assert_eq!(sample.register[..5], *b"TRN\x02\x00");
        let day = u32::from_le_bytes(sample.register[83..87].try_into().unwrap());
        (outcome.count, sample.register[5], sample.register[82], day)
    };
    assert_eq!(step(&mut sample, "CXL", 20250322), (1, 0, 0xEE, 0xEEEE_EEEE));
    assert_eq!(step(&mut sample, "NEW", 20250322), (0, 1, 1, 20250322));
    // New again, then with another mistake: what is rejected leaves the day.
    assert_eq!(step(&mut sample, "NEW", 20250323), (1, 1, 1, 20250322));
    sample.set(6, "x");
    assert_eq!(step(&mut sample, "CXL", 20250323), (1, 1, 1, 20250322));
    sample.set(6, E);
    assert_eq!(step(&mut sample, "CXL", 20250324), (0, 1, 2, 20250324));
    assert_eq!(step(&mut sample, "CXL", 20250325), (1, 1, 2, 20250324));
    // In the same row, and on an earlier day than before.
    assert_eq!(step(&mut sample, "NEW", 20250322), (0, 1, 1, 20250322));
    // Another pair takes the next row, and the first keeps its day.
    sample.set(2, "R2");
    assert_eq!(step(&mut sample, "NEW", 20250326), (0, 2, 1, 20250322));
    assert_eq!(sample.register[9 + 78 + 73..][..5], [1, 0xD6, 0xFE, 0x34, 0x01]);
    sample.set(2, "R3");
    let before = sample.register.clone();
    assert_eq!((sample.judge().answer, sample.register == before), (11, true));
    assert_eq!(sample.register[9 + 2 * 78..], [0xEE; 5]);
}

#[test]
fn version_1_has_no_day() {
    let mut sample = clean();
    sample.register = empty_register(Version::One, 9 + 3 * 74);
    for reference in ["R1", "R2"] {
        assert_eq!(sample.set(2, reference).judge(), Outcome::default());
    }
    assert_eq!(sample.register[..9], Version::One.head(2));
    assert_eq!(sample.register[83..83 + 23], [E.as_bytes(), b"\x02R2"].concat());
    assert_eq!(sample.register[9 + 2 * 74..], [0xEE; 74]);
}

#[test]
fn registers_at_their_edges() {
    let answer = |version: u16, used: u32, length: usize| {
        let mut sample = clean();
        sample.register = [&b"TRN"[..], &version.to_le_bytes(), &used.to_le_bytes()].concat();
        sample.register.resize(length, 0);
        sample.judge().answer
    };
    // 19 rows of 78 bytes are two bytes more than 20 of 74.
    let length = 9 + 19 * 78;
    assert_eq!([19, 20, 21].map(|used| answer(1, used, length)), [0, 11, 6]);
    assert_eq!([18, 19, 20].map(|used| answer(2, used, length)), [0, 11, 6]);
    assert_eq!([17, 18, 19].map(|used| answer(2, used, length - 1)), [0, 11, 6]);
    assert_eq!([0, 1, 2].map(|used| answer(2, used, 9 + 78)), [0, 11, 6]);
    assert_eq!([0, 1].map(|used| answer(2, used, 9 + 77)), [11, 6]);
    assert_eq!([0, 1].map(|used| answer(2, used, 9)), [11, 6]);
    for version in [0, 3, 255, 256, 257, 258, 512, 513, 514, u16::MAX] {
        assert_eq!(answer(version, 0, 9 + 78), 6);
    }
}

#[test]
fn a_converted_register_goes_on() {
    let mut sample = clean();
    sample.judge();
    let mut converted = vec![0xEE; 9 + 2 * 78];
    assert_eq!(convert(&sample.register, &mut converted), 0);
    sample.register = converted;
    assert_eq!(sample.codes(), [23]);
    assert_eq!(sample.register[82..87], [1, 0, 0, 0, 0]);
    assert_eq!(sample.set(1, "CXL").judge(), Outcome::default());
    assert_eq!(sample.register[82..87], [2, 0xD2, 0xFE, 0x34, 0x01]);
}

#[test]
fn cancellations_read_four_cells() {
    let mut sample = clean();
    sample.judge();
    let garbage: Vec<(usize, &str)> = (7..=65).map(|cell| (cell, "\u{7f}garbage")).collect();
    let cancelled = sample.with(&garbage).with(&[(1, "CXL"), (3, "-"), (5, "-")]);
    assert_eq!(cancelled.codes(), []);
    assert_eq!(cancelled.with(&[(2, "")]).codes(), [1002]);
    assert_eq!(cancelled.with(&[(4, "x"), (6, "x")]).codes(), [1004, 1006]);
    assert_eq!(cancelled.with(&[(6, "00000000000000000097")]).codes(), [60]);
    assert_eq!(clean().with(&[(1, "CXL"), (6, "00000000000000000097")]).codes(), [24, 60]);
}

#[test]
fn needed_cells() {
    for cell in 2..=65 {
        let needed = [2, 4, 5, 6, 7, 16, 25, 28, 29, 30, 33, 36, 59, 65].contains(&cell);
        let codes = clean().with(&[(cell, "")]).codes();
        match cell {
            37 => assert_eq!(codes, [370]),
            _ if needed => assert_eq!(codes, [1000 + cell as u16]),
            _ => assert_eq!(codes, []),
        }
    }
    let garbage: Vec<(usize, &str)> = (2..=65).map(|cell| (cell, "\u{1}")).collect();
    assert_eq!(clean().with(&garbage).codes(), (1002..=1065).collect::<Vec<u16>>());
}

/// The codes of a line that is submitted at noon.
fn on(submitted: u32, traded: &str) -> Vec<u16> {
    let mut sample = clean();
    sample.day = submitted;
    sample.with(&[(28, traded)]).codes()
}

#[test]
fn five_years_and_the_first_day() {
    // The day of submission, the first day that is not too early, the day before it.
    for (submitted, free, too_early) in [
        (20240322, "2019-03-22", "2019-03-21"),
        (20250322, "2020-03-22", "2020-03-21"),
        (20250101, "2020-01-01", "2019-12-31"),
        (20241231, "2019-12-31", "2019-12-30"),
        (99991231, "9994-12-31", "9994-12-30"),
        // In a leap year: 28 February stands for itself and for 29 February.
        (20240228, "2019-02-28", "2019-02-27"),
        (20240229, "2019-02-28", "2019-02-27"),
        (20240301, "2019-03-01", "2019-02-28"),
        // Five years after one: 29 February lies between.
        (20250228, "2020-02-28", "2020-02-27"),
        (20250301, "2020-03-01", "2020-02-29"),
        (20260228, "2021-02-28", "2021-02-27"),
        (20260301, "2021-03-01", "2021-02-28"),
        // 2100 is no leap year.
        (21000228, "2095-02-28", "2095-02-27"),
        (21000301, "2095-03-01", "2095-02-28"),
        (21010228, "2096-02-28", "2096-02-27"),
        (21010301, "2096-03-01", "2096-02-29"),
        (21020101, "2097-01-01", "2096-12-31"),
        (21030630, "2098-06-30", "2098-06-29"),
        (21040228, "2099-02-28", "2099-02-27"),
        (21040229, "2099-02-28", "2099-02-27"),
        (21040301, "2099-03-01", "2099-02-28"),
        (21050228, "2100-02-28", "2100-02-27"),
        (21050301, "2100-03-01", "2100-02-28"),
        (24000229, "2395-02-28", "2395-02-27"),
        (24050301, "2400-03-01", "2400-02-29"),
        // The first day of all, until five years have passed since.
        (20180103, "2018-01-03", "2018-01-02"),
        (20200229, "2018-01-03", "2018-01-02"),
        (20230102, "2018-01-03", "2018-01-02"),
        (20230103, "2018-01-03", "2018-01-02"),
        (20230104, "2018-01-04", "2018-01-03"),
    ] {
        assert_eq!(on(submitted, &format!("{free}T00:00:00Z")), [], "{submitted}");
        assert_eq!(on(submitted, &format!("{too_early}T23:59:59.999999Z")), [281], "{submitted}");
    }
    assert_eq!(on(20250228, "2020-02-29T09:00:00Z"), []);
    assert!(on(20250322, "1900-01-01T09:00:00Z").contains(&281));
}

#[test]
fn five_years_before_every_day() {
    let first = Day::new(20180103).unwrap();
    let mut day = Day::new(20200101).unwrap();
    while day.number() <= 21101231 {
        let (year, in_year) = (day.number() / 10_000, day.number() % 10_000);
        let mut edge = day;
        while edge.number() / 10_000 != year - 5 || edge.number() % 10_000 > in_year {
            edge = edge.previous().unwrap();
        }
        let edge = edge.max(first);
        for (traded, codes) in [(edge.previous(), &[281][..]), (Some(edge), &[]), (edge.next(), &[])] {
            let number = traded.unwrap().number();
            let traded = format!("{}-{:02}-{:02}T09:00:00Z", number / 10_000, number / 100 % 100, number % 100);
            assert_eq!(on(day.number(), &traded), codes, "{} {traded}", day.number());
        }
        day = day.next().unwrap();
    }
}

#[test]
fn submitted_when_no_day_lies_five_years_before() {
    // The lists have no rows for those years, so other rules have something to say.
    let on = |submitted, traded: &str| {
        let mut codes = on(submitted, traded);
        codes.retain(|code| [280, 281].contains(code));
        codes
    };
    let mut day = Day::new(19000101).unwrap();
    while day.number() <= 19050101 {
        let submitted = day.number();
        assert_eq!(on(submitted, "1900-01-01T09:00:00Z"), [281], "{submitted}");
        assert_eq!(on(submitted, "2018-01-02T23:59:59.999999Z"), [280, 281], "{submitted}");
        assert_eq!(on(submitted, "2018-01-03T00:00:00Z"), [280], "{submitted}");
        day = day.next().unwrap();
    }
}

#[test]
fn trading_is_before_submission() {
    let at = |time: &str| clean().with(&[(28, &format!("2025-03-22T{time}Z"))]).codes();
    assert_eq!(at("11:59:59.999999"), []);
    assert_eq!(at("12:00:00"), [280]);
    assert_eq!(at("12:00:00.000000"), [280]);
    assert_eq!(at("12:00:00.1"), [280]);
    assert_eq!(clean().with(&[(28, "2025-03-23T00:00:00Z")]).codes(), [280]);
}

#[test]
fn a_malformed_cell_silences_the_rules_that_read_it() {
    // 072 under XXXX needs no list, and still reads T.
    assert_eq!(clean().with(&[(16, "MIC:XXXX")]).codes(), [162]);
    assert_eq!(clean().with(&[(16, "MIC:XXXX"), (28, "x")]).codes(), [1028]);
    assert_eq!(clean().with(&[(34, "XXX"), (28, "x")]).codes(), [1028]);
    assert_eq!(clean().with(&[(36, "XXXX"), (41, ""), (28, "x")]).codes(), [1028]);
    // 073 reads the date cell, 110 the date cell and T, 074 the party alone.
    assert_eq!(clean().with(&[(11, "1980-01-02")]).codes(), [73]);
    assert_eq!(clean().with(&[(11, "1980-01-32")]).codes(), [1011]);
    assert_eq!(clean().with(&[(7, "NIDN:D"), (28, "x"), (11, "x")]).codes(), [74, 1011, 1028]);
    assert_eq!(clean().with(&[(11, "2025-03-22"), (7, "INTC")]).codes(), [110]);
    // 290 reads both parties.
    let deal = clean().with(&[(29, "DEAL"), (57, "ALGO:1")]);
    assert_eq!(deal.codes(), [290]);
    assert_eq!(deal.with(&[(7, "?")]).codes(), [1007]);
    assert_eq!(deal.with(&[(16, &format!("LEI:{E}"))]).codes(), []);
    assert_eq!(deal.with(&[(57, ""), (16, &format!("LEI:{E}"))]).codes(), [570]);
    assert_eq!(deal.with(&[(57, ""), (16, &format!("LEI:{E}")), (26, "?")]).codes(), [1026]);
}

#[test]
fn leis_good_and_not() {
    assert_eq!(clean().with(&[(4, F)]).codes(), [40]);
    assert_eq!(clean().with(&[(4, F), (5, "FALSE")]).codes(), []);
    assert_eq!(clean().with(&[(6, F)]).codes(), []);
    assert_eq!(clean().with(&[(26, "00000000000000000A68"), (27, F)]).codes(), [260]);
    let mut sample = clean();
    // Inactive since the trading day; the submission day is later.
    sample.lei = list("LEI", &[row(E, &[1, 2], 20000101, 20250321)]);
    assert_eq!(sample.codes(), [60]);
    // Two rows that are good only together.
    sample.lei = list("LEI", &[row(E, &[1, 2], 20000101, 20250320), row(E, &[1, 1], 20250323, 0)]);
    assert_eq!(sample.codes(), [40, 60]);
    sample.lei = list("LEI", &[row(E, &[5, 1], 20000101, 0), row(E, &[1, 3], 20000101, 99991231)]);
    assert_eq!(sample.codes(), [40, 60]);
    sample.lei = list("LEI", &[row(E, &[4, 1], 20250321, 0)]);
    assert_eq!(sample.codes(), []);
}

/// The one LEI of the tests on parties' conditions; E is good on every day that they have.
const G: &str = "00000000000000000A68";

/// Where G stands, with the code that is given where it is not good: a party, alone, or as the executing entity.
const PARTY_PLACES: [(usize, u16); 4] = [(7, 70), (12, 120), (16, 160), (21, 210)];
const OTHER_PLACES: [(usize, u16); 4] = [(26, 260), (27, 270), (4, 40), (4, 41)];

/// G's row: status, entity, registration, update.
#[derive(Clone, Copy)]
struct GRow(u8, u8, u32, u32);

/// Is this code, of those on LEIs, the only one where G stands in its cell? Otherwise there is none.
fn g_is_bad(row_of_g: GRow, (cell, code): (usize, u16), traded: u32, submitted: u32) -> bool {
    let GRow(status, entity, registered, updated) = row_of_g;
    let mut sample = clean();
    sample.lei = list("LEI", &[row(E, &[1, 1], 20000101, 0), row(G, &[status, entity], registered, updated)]);
    sample.day = submitted;
    let value = if PARTY_PLACES.contains(&(cell, code)) { format!("LEI:{G}") } else { G.to_string() };
    sample.set(28, &format!("{}-{:02}-{:02}T09:00:00Z", traded / 10_000, traded / 100 % 100, traded % 100));
    sample.set(cell, &value).set(5, if code == 41 { "FALSE" } else { "TRUE" });
    let mut codes = sample.codes();
    // On some of the days the trade is too early, or to come.
    codes.retain(|code| ![280, 281].contains(code));
    assert!(codes.is_empty() || codes == [code], "{code} {traded} {submitted}: {codes:?}");
    !codes.is_empty()
}

/// The days round the change of conditions, with the day before each and the day after.
const ROUND_THE_CHANGE: [[u32; 3]; 4] = [
    [20180630, 20180701, 20180702],
    [20180701, 20180702, 20180703],
    [20180702, 20180703, 20180704],
    [20180703, 20180704, 20180705],
];

/// Submission days on both sides of the change, and years later; some before the trade.
const SUBMISSIONS: [u32; 8] = [20180630, 20180701, 20180702, 20180703, 20180704, 20190702, 20230701, 20250322];

#[test]
fn until_2_july_2018_parties_may_be_registered_later() {
    for [before, t, after] in ROUND_THE_CHANGE {
        for s in SUBMISSIONS {
            for registered in [20000101, before, t, after, 20180731, 20190101, 99991231] {
                let active = GRow(1, 1, registered, 0);
                for place in PARTY_PLACES {
                    let bad = t >= 20180703 && registered > t;
                    assert_eq!(g_is_bad(active, place, t, s), bad, "{place:?} {t} {s} {registered}");
                }
                for place in OTHER_PLACES {
                    assert_eq!(g_is_bad(active, place, t, s), registered > t, "{place:?} {t} {s} {registered}");
                }
            }
        }
    }
    // The first trading day of all, and the same day of other years.
    let later = |t, registered| PARTY_PLACES.map(|place| g_is_bad(GRow(1, 1, registered, 0), place, t, 20190703));
    assert_eq!(later(20180103, 20180104), [false; 4]);
    assert_eq!(later(20171231, 20180104), [false; 4]);
    assert_eq!(later(20180630, 99991231), [false; 4]);
    assert_eq!(later(20190702, 20190703), [true; 4]);
    assert_eq!(later(20181231, 20190101), [true; 4]);
}

#[test]
fn the_submitting_entity_is_registered_by_its_day() {
    for [before, s, after] in ROUND_THE_CHANGE {
        for t in [20180630, 20180701, 20180702, 20180703] {
            for registered in [before, s, after] {
                assert_eq!(g_is_bad(GRow(1, 1, registered, 0), (6, 60), t, s), registered > s, "{t} {s}");
            }
        }
    }
}

#[test]
fn what_else_is_asked_of_parties_on_either_side() {
    for [before, t, _] in ROUND_THE_CHANGE {
        for s in SUBMISSIONS {
            let bad = |row| PARTY_PLACES.map(|place| g_is_bad(row, place, t, s));
            for registered in [20000101, 20180705] {
                let late = t >= 20180703 && registered > t;
                for status in 0..=6 {
                    let meaningless = !(1..=4).contains(&status);
                    assert_eq!(bad(GRow(status, 1, registered, 0)), [late || meaningless; 4], "{t} {s} {status}");
                }
                for entity in [0, 3, 255] {
                    assert_eq!(bad(GRow(1, entity, registered, 99991231)), [true; 4], "{t} {s} {entity}");
                }
                assert_eq!(bad(GRow(1, 2, registered, before)), [true; 4], "{t} {s}");
                assert_eq!(bad(GRow(2, 2, registered, t)), [late; 4], "{t} {s}");
                assert_eq!(bad(GRow(3, 2, registered, 99991231)), [late; 4], "{t} {s}");
            }
        }
    }
}

#[test]
fn check_digits_and_single_rows_count_on_either_side() {
    let wrong = "00000000000000000097";
    for traded in ["2018-07-02T23:59:59.999999Z", "2018-07-03T00:00:00Z"] {
        let mut sample = clean();
        sample.day = 20180705;
        sample.set(28, traded);
        let parties = |sample: &Sample, lei: &str| {
            let lei = format!("LEI:{lei}");
            sample.with(&PARTY_PLACES.map(|(cell, _)| (cell, &lei[..]))).codes()
        };
        sample.lei = list("LEI", &[row(E, &[1, 1], 20000101, 0), row(wrong, &[1, 1], 20000101, 0)]);
        assert_eq!(parties(&sample, wrong), [70, 120, 160, 210]);
        // Without a row, and with two rows that are good only together.
        assert_eq!(parties(&sample, G), [70, 120, 160, 210]);
        let rows = [row(E, &[1, 1], 20000101, 0), row(G, &[1, 2], 20000101, 20180701), row(G, &[5, 1], 20190101, 0)];
        sample.lei = list("LEI", &rows);
        assert_eq!(parties(&sample, G), [70, 120, 160, 210]);
    }
    // The day changes at midnight: an entity that is registered on 4 July.
    let at = |traded| {
        let mut sample = clean();
        sample.lei = list("LEI", &[row(E, &[1, 1], 20000101, 0), row(G, &[1, 1], 20180704, 0)]);
        sample.day = 20180705;
        let lei = format!("LEI:{G}");
        sample.with(&[(28, traded), (7, &lei), (16, &lei), (26, G)]).codes()
    };
    assert_eq!(at("2018-07-02T23:59:59.999999Z"), [260]);
    assert_eq!(at("2018-07-03T00:00:00Z"), [70, 160, 260]);
    assert_eq!(at("2018-07-04T00:00:00Z"), []);
    // Without a trading day neither set is asked.
    assert_eq!(at("2018-07-03"), [1028]);
}

#[test]
fn currencies() {
    assert_eq!(clean().with(&[(31, "DEM")]).codes(), []);
    assert_eq!(clean().with(&[(34, "DEM"), (44, "DEM"), (45, "FX:DEM"), (52, "DEM")]).codes(), [340, 440, 451, 520]);
    let mut sample = clean();
    sample.ccy =
        list("CCY", &[row("EUR", &[1], 20250321, 20250321), row("XAU", &[2], 0, 0), row("XXX", &[1], 0, u32::MAX)]);
    assert_eq!(sample.codes(), []);
    assert_eq!(sample.with(&[(31, "XAU"), (34, "XXX")]).codes(), [310, 340]);
    sample.ccy = list("CCY", &[row("EUR", &[3], 19990101, 99991231)]);
    assert_eq!(sample.codes(), [340]);
}

#[test]
fn venues() {
    assert_eq!(clean().with(&[(36, "TGAT")]).codes(), [372]);
    assert_eq!(clean().with(&[(36, "TGAT"), (37, ""), (3, "A")]).codes(), [30]);
    assert_eq!(clean().with(&[(36, "XXXX"), (37, "")]).codes(), [361]);
    assert_eq!(clean().with(&[(36, "XOFF"), (37, "")]).codes(), []);
    assert_eq!(clean().with(&[(36, "ABCD"), (37, ""), (3, "A")]).codes(), [360]);
    assert_eq!(clean().with(&[(25, "TRUE")]).codes(), [362]);
    assert_eq!(clean().with(&[(25, "TRUE"), (36, "XOFF"), (37, ""), (29, "MTCH")]).codes(), [251]);
    assert_eq!(clean().with(&[(16, "MIC:TGAT"), (7, "NIDN:FR1")]).codes(), [71, 162]);
    let mut sample = clean();
    sample.ven =
        list("VEN", &[row("XETR", &[1], 0, u32::MAX), row("XOFF", &[1], 0, u32::MAX), row("ABCD", &[4], 0, u32::MAX)]);
    assert_eq!(sample.with(&[(36, "XOFF")]).codes(), [372]);
    assert_eq!(sample.with(&[(36, "XOFF"), (37, "")]).codes(), [370]);
    assert_eq!(sample.with(&[(36, "ABCD")]).codes(), [360]);
}

#[test]
fn classifications() {
    let of = |cfi: &str, more: &[(usize, &str)]| clean().with(&[(43, cfi)]).with(more).codes();
    assert_eq!(of("DBFTFB", &[]), [350, 540]);
    assert_eq!(of("DBFTFB", &[(35, "1"), (54, "2025-03-20"), (48, "X"), (33, "PC:1")]), [330, 481, 541]);
    assert_eq!(of("OCEIXN", &[]), [480, 500, 510, 530, 550]);
    assert_eq!(of("OCEICN", &[]), [480, 500, 510, 530, 550, 560]);
    assert_eq!(of("HTAXXP", &[(50, "CALL"), (51, "NOAP"), (53, "EURO")]), [560]);
    // The P of HT***P is the sixth letter, not the fifth.
    assert_eq!(of("HTAXPX", &[(50, "CALL"), (51, "NOAP"), (53, "EURO")]), []);
    assert_eq!(of("SFXXXC", &[(47, "SWAP:+{0:DE0005557508}")]), []);
    assert_eq!(of("SFXXXP", &[(47, "OTHR:")]), [473, 560]);
    assert_eq!(of("SCXXXC", &[(56, "PHYS")]), [380, 473, 560]);
    assert_eq!(of("RWXXPX", &[(50, "CALL"), (51, "NOAP"), (53, "EURO")]), [502]);
    assert_eq!(of("JCXXFX", &[(50, "CALL")]), [501, 550]);
    let mut sample = clean();
    sample.ins =
        list("INS", &[row("AA0000000006", b"ESVUFR", 0, 1), row("AA0000000006", b"DBFTFB", 20250321, 20250321)]);
    assert_eq!(sample.with(&[(33, "PC:1")]).codes(), [331, 351]);
    sample.ins = list("INS", &[row("AA0000000006", b"DBFTF*", 0, u32::MAX)]);
    assert_eq!(sample.with(&[(33, "PC:1")]).codes(), []);
}

#[test]
fn isins_of_the_underlying() {
    let of = |underlying: &str| clean().with(&[(47, underlying)]).codes();
    let wrong = "DE0005557507";
    for right in ["SWAP:", "OTHR:", "OTHR:{0:DE0005557508}", "SWAP:+{0:DE0005557508};-{0:BG11FOKAAT18}"] {
        assert_eq!(of(right), [], "{right}");
    }
    assert_eq!(of(&format!("OTHR:{{0:{wrong}}}")), [470]);
    assert_eq!(of(&format!("OTHR:{{0:DE0005557508,1:{wrong},2:DE0005557508}}")), [470]);
    assert_eq!(of(&format!("SWAP:-{{0:{wrong}}}")), [470]);
    assert_eq!(of(&format!("SWAP:+{{0:DE0005557508}};-{{0:BG11FOKAAT18,1:{wrong}}}")), [470]);
    // It reads cell 47 alone, and says nothing of a malformed one.
    assert_eq!(of(&format!("OTHR:{{0:{wrong} }}")), [1047]);
    let sample = clean().with(&[(47, &format!("OTHR:{{0:{wrong}}}")), (28, "x"), (43, "x"), (48, "\u{1}"), (49, "x")]);
    assert_eq!(sample.codes(), [470, 1028, 1043, 1048, 1049]);
    assert_eq!(sample.with(&[(1, "CXL"), (49, "x")]).codes(), [24]);
}

#[test]
fn underlying_of_a_swap() {
    let leg = "SWAP:+{0:DE0005557508}";
    let of = |underlying: &str, name: &str| clean().with(&[(43, "SFXXXX"), (47, underlying), (48, name)]).codes();
    for none in ["", "OTHR:", "OTHR:{0:DE0005557508}"] {
        assert_eq!([of(none, ""), of(none, "DAX")], [[473], [473]], "{none}");
    }
    for alone in ["SWAP:", "SWAP:   "] {
        assert_eq!(of(alone, ""), [473]);
        assert_eq!(of(alone, "DAX"), []);
    }
    assert_eq!(of(leg, ""), []);
    assert_eq!(of(leg, "DAX"), []);
    assert_eq!(of("SWAP:+{0:DE0005557507}", ""), [470]);
    // A form finding in any of the three cells rules it out, whatever the others say.
    assert_eq!(of("OTHR:~", ""), [1047]);
    for underlying in ["", "OTHR:", "SWAP:"] {
        assert_eq!(of(underlying, "\u{1}"), [1048]);
        assert_eq!(clean().with(&[(43, "SFXXX"), (47, underlying)]).codes(), [1043]);
    }
    assert_eq!(clean().with(&[(43, "FFXXXX"), (47, "SWAP:"), (55, "2025-03-21")]).codes(), []);
}

#[test]
fn index_terms_go_by_the_underlying() {
    let of = |underlying: &str, term: &str| clean().with(&[(47, underlying), (49, term)]).codes();
    let (swap, other) = ("+{0:MNTH#3};-{0: MNTH#3}", "{0:MNTH#3}");
    for underlying in ["SWAP:", "SWAP: ", "SWAP:-{7:DE0005557508}", "SWAP:+{0:DE0005557508};-{0:BG11FOKAAT18}"] {
        assert_eq!(of(underlying, swap), []);
        assert_eq!(of(underlying, "+{5:YEAR#1,6:YEAR#2}"), []);
        assert_eq!(of(underlying, other), [1049]);
        assert_eq!(of(underlying, ""), []);
    }
    for underlying in ["OTHR:", "OTHR:{0:DE0005557508,1:DE0005557508}"] {
        assert_eq!(of(underlying, other), []);
        assert_eq!(of(underlying, swap), [1049]);
        assert_eq!(of(underlying, ""), []);
    }
    for term in [swap, other, "X", " "] {
        assert_eq!(of("", term), [1049]);
    }
    // Beside a malformed cell 47 any text will do.
    let longest = "~".repeat(400);
    for term in [swap, other, "X", " ", &longest, ""] {
        assert_eq!(of("OTHR:~", term), [1047]);
    }
    let too_long = "~".repeat(401);
    for term in [&too_long, "+{0:\u{1}}", "\u{7f}", "é"] {
        assert_eq!(of("OTHR:~", term), [1047, 1049]);
    }
    // 490 looks at cell 49 alone: a malformed cell 47 does not silence it.
    let option =
        clean().with(&[(43, "OCENXN"), (48, "X"), (50, "CALL"), (51, "NOAP"), (53, "EURO"), (55, "2025-03-21")]);
    assert_eq!(option.codes(), [490]);
    assert_eq!(option.with(&[(47, "OTHR:~")]).codes(), [490, 1047]);
    assert_eq!(option.with(&[(47, "OTHR:"), (49, swap)]).codes(), [1049]);
    assert_eq!(option.with(&[(47, "OTHR:"), (49, other)]).codes(), []);
}

/// The clean line, in a call that asks for Polish identifiers. PL is a country.
fn polish() -> Sample {
    let mut sample = clean();
    sample.cty = list("CTY", &[row("DE", b"", 0, u32::MAX), row("PL", b"", 0, u32::MAX)]);
    sample.polish = 1;
    sample
}

/// The cells with Polish identifiers, each with its date of birth where there is one.
const POLISH_CELLS: [(usize, Option<usize>); 6] =
    [(7, Some(11)), (12, Some(15)), (16, Some(20)), (21, Some(24)), (57, None), (59, None)];

/// The codes of an identifier in each of the cells alone, beside this date of birth; the same for all of them, as far
/// as they have a date. With the flag off there are none of the three.
fn identified(identifier: &str, birth: &str) -> Vec<u16> {
    let mut found = POLISH_CELLS.map(|(cell, birth_cell)| {
        let mut sample = polish().with(&[(7, "INTC"), (11, ""), (cell, identifier)]);
        if let Some(birth_cell) = birth_cell {
            sample.set(birth_cell, birth);
        }
        let codes = sample.codes();
        sample.polish = 0;
        let mut without = codes.clone();
        without.retain(|code| *code < 3307);
        assert_eq!(sample.codes(), without, "{identifier}");
        codes
    });
    let dated = found[0].clone();
    let undated: Vec<u16> = dated.iter().copied().filter(|code| *code != 3309).collect();
    assert!(found[..4].iter().all(|codes| *codes == dated), "{identifier}: {found:?}");
    assert!(found[4..].iter().all(|codes| *codes == undated), "{identifier}: {found:?}");
    std::mem::take(&mut found[0])
}

#[test]
fn polish_numbers_that_are_right() {
    assert_eq!(identified("NIDN:PL44051401359", ""), []);
    assert_eq!(identified("NIDN:PL44051401359", "1944-05-14"), []);
    assert_eq!(identified("NIDN:PL02070803628", "1902-07-08"), []);
    for birth in ["", "1944-05-14", "1912-05-01"] {
        assert_eq!(identified("NIDN:PL1234563218", birth), []);
        assert_eq!(identified("NIDN:PL0000000000", birth), []);
    }
}

#[test]
fn polish_numbers_that_are_none() {
    for behind in ["1", "440514013", "440514013591", "A4051401359", "4405140135A", "123456321A", "ABCDEFGHIJ"] {
        // Neither the check digit nor the day is looked at then.
        for birth in ["", "1944-05-14", "1944-05-15"] {
            assert_eq!(identified(&format!("NIDN:PL{behind}"), birth), [3307]);
        }
    }
    assert_eq!(identified(&format!("NIDN:PL{}", "0".repeat(33)), ""), [3307]);
}

#[test]
fn polish_check_digits() {
    assert_eq!(identified("NIDN:PL44051401358", ""), [3308]);
    assert_eq!(identified("NIDN:PL44051401350", "1944-05-14"), [3308]);
    assert_eq!(identified("NIDN:PL1234563217", "1944-05-14"), [3308]);
    // The sum of a NIP leaves ten.
    for digit in 0..=9 {
        assert_eq!(identified(&format!("NIDN:PL000000003{digit}"), ""), [3308]);
    }
}

#[test]
fn polish_days_of_birth() {
    for birth in ["1944-05-13", "1944-05-15", "1944-06-14", "1945-05-14", "2004-05-14", "1900-01-01"] {
        assert_eq!(identified("NIDN:PL44051401359", birth), [3309]);
        // The check digit is another matter.
        assert_eq!(identified("NIDN:PL44051401358", birth), [3308, 3309]);
    }
    // The same year, month and day of other centuries, of which the last is to come.
    assert_eq!(identified("NIDN:PL02070803628", "2002-07-08"), [3309]);
    assert_eq!(polish().with(&[(7, "NIDN:PL02070803628"), (11, "2102-07-08")]).codes(), [110, 3309]);
    assert_eq!(polish().with(&[(7, "NIDN:PL02470803620"), (11, "2102-07-08")]).codes(), [110]);
}

#[test]
fn polish_days_that_are_none() {
    // 29 February 1900, the month 00, the day 00; all with right check digits.
    for number in ["00022900003", "44001400001", "44050000009"] {
        for birth in ["", "1900-03-01", "1944-05-14"] {
            assert_eq!(identified(&format!("NIDN:PL{number}"), birth), [3309], "{number} {birth}");
        }
        let wrong = format!("NIDN:PL{}6", &number[..10]);
        assert_eq!(identified(&wrong, ""), [3308, 3309]);
    }
    // 29 February 1804 is a day, but not one that a date cell can hold.
    assert_eq!(identified("NIDN:PL04822900005", ""), []);
    assert_eq!(identified("NIDN:PL04822900005", "1904-02-29"), [3309]);
}

#[test]
fn polish_cells_with_form_findings() {
    let sample = polish().with(&[(11, ""), (15, ""), (20, ""), (24, "")]);
    // In the date cell: 3309 alone falls silent, for a number that names no day too.
    for (cell, birth_cell, code) in [(7, 11, 1011), (12, 15, 1015), (16, 20, 1020), (21, 24, 1024)] {
        for (number, found) in [("44051401359", None), ("44051401358", Some(3308)), ("00022900003", None)] {
            let codes = sample.with(&[(cell, &format!("NIDN:PL{number}")), (birth_cell, "1900-02-29")]).codes();
            assert_eq!(codes, [code].into_iter().chain(found).collect::<Vec<u16>>());
        }
        assert_eq!(sample.with(&[(cell, "NIDN:PL1"), (birth_cell, "?")]).codes(), [code, 3307]);
    }
    // In one of the cells: the others still speak.
    let both = sample.with(&[(7, "NIDN:PL1"), (57, "NIDN:PL44051401358")]);
    assert_eq!(both.codes(), [3307, 3308]);
    assert_eq!(both.with(&[(7, "NIDN:PL\u{7f}")]).codes(), [1007, 3308]);
    assert_eq!(both.with(&[(57, "NIDN:PL4405140135 ")]).codes(), [1057, 3307]);
    assert_eq!(both.with(&[(59, "NIDN:PL")]).codes(), [1059, 3307, 3308]);
    // Cell 28 and the lists are not read.
    assert_eq!(both.with(&[(28, "?")]).codes(), [1028, 3307, 3308]);
    let mut unlisted = both;
    unlisted.cty = list("CTY", &[row("DE", b"", 0, u32::MAX)]);
    assert_eq!(unlisted.codes(), [71, 3307, 3308]);
}

#[test]
fn identifiers_that_are_not_polish() {
    for identifier in
        ["CCPT:PL1", "CCPT:PL44051401358", "CONCAT:PL19440514JOHN#SMITH", "NIDN:DE1", "NIDN:DE44051401358"]
    {
        assert_eq!(identified(identifier, ""), [], "{identifier}");
    }
    // Without the person shape there is nothing to look at.
    for (identifier, codes) in [
        ("NIDN:PL", &[74][..]),
        ("NIDN:PL4405140135a", &[74]),
        ("NIDN:PL-4405140135", &[74]),
        ("NIDN:PL 44051401358", &[74]),
        ("NIDN:pl44051401358", &[74]),
        ("NIDN:Pl44051401358", &[74]),
        ("NIDN:44051401358PL", &[74]),
        ("nidn:PL44051401358", &[1007]),
    ] {
        assert_eq!(polish().with(&[(7, identifier), (11, "1944-05-15")]).codes(), codes, "{identifier}");
    }
    for nobody in ["INTC", "MIC:XETR", &format!("LEI:{E}")] {
        assert_eq!(polish().with(&[(7, nobody), (11, "1944-05-15")]).codes(), []);
    }
}

#[test]
fn polish_codes_come_once_and_last() {
    let wrong = "NIDN:PL44051401358";
    let mut sample = polish().with(&[(7, wrong), (12, wrong), (16, wrong), (21, wrong), (57, wrong), (59, wrong)]);
    assert_eq!(sample.with(&[(11, ""), (65, "")]).codes(), [1065, 3308]);
    sample = sample.with(&[(16, "NIDN:PL1"), (59, "NIDN:PL1"), (65, "")]);
    assert_eq!(sample.codes(), [1065, 3307, 3308, 3309]);
    assert_eq!(sample.judge().words, [0, 0, 0b1111 << 9]);
    assert_eq!(polish().with(&[(59, "NIDN:PL1")]).judge().words, [0, 0, 1 << 10]);
}

#[test]
fn polish_identifiers_of_other_lines() {
    let mut sample = polish().with(&[(7, "NIDN:PL44051401358"), (59, "NIDN:PL1")]);
    assert_eq!(sample.codes(), [3307, 3308, 3309]);
    assert_eq!(sample.with(&[(1, "CXL")]).codes(), [24]);
    assert_eq!(sample.with(&[(1, "new")]).codes(), [1001]);
    // Any number but 0 asks for them. A line with nothing else wrong is accepted where none does.
    for polish in [2, 256, 1 << 16, 1 << 31, u32::MAX] {
        sample.polish = polish;
        assert_eq!(sample.codes(), [3307, 3308, 3309]);
    }
    sample.polish = 0;
    assert_eq!(sample.judge(), Outcome::default());
    assert_eq!(sample.register[5], 1);
}

#[test]
fn the_room_that_polish_identifiers_ask_for() {
    let judged = |status: &str, polish: u32, entries: usize| {
        let mut sample = clean().with(&[(1, status)]);
        sample.polish = polish;
        sample.findings = vec![FILLER; entries];
        sample.judge().answer
    };
    for status in ["NEW", "CXL", ""] {
        assert_eq!([137, 138, 140, 141].map(|entries| judged(status, 0, entries)), [8, 0, 0, 0]);
        assert_eq!([137, 138, 140, 141].map(|entries| judged(status, 1, entries)), [8, 8, 8, 0]);
        assert_eq!([140, 141].map(|entries| judged(status, 1 << 31, entries)), [8, 0]);
    }
    // A refusal before comes first, one behind does not.
    let mut sample = polish();
    sample.findings.truncate(140);
    assert_eq!(sample.with(&[(65, "FALSE|")]).refused(), 8);
    sample.day = 0;
    assert_eq!(sample.refused(), 7);
}
