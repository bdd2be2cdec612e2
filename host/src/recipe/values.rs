//! Values for single cells: well formed ones at the edge of their form, and malformed ones just beyond it.

use super::rng::{Rng, ALPHANUMERIC, CAPITALS, CODE, DIGITS};
use super::underlying::{self, Size};
use super::world::{make_isin, make_lei, with_check_digit};

/// Cells that a new report needs.
pub const NEEDED: [usize; 15] = [1, 2, 4, 5, 6, 7, 16, 25, 28, 29, 30, 33, 36, 59, 65];

/// Bytes at the edges of the alphabets; never the bar.
const EDGES: &[u8] = b"\0\t\n\r\x1f !#+-./:;@[_`{}~\x7f\x80\xbf\xc3\xff09AZaz";

/// The words of an enumeration.
fn words(cell: usize) -> &'static [&'static str] {
    match cell {
        1 => &["NEW", "CXL"],
        5 | 25 | 64 | 65 => &["TRUE", "FALSE"],
        29 => &["DEAL", "MTCH", "AOTC"],
        32 => &["INCR", "DECR"],
        50 => &["PUTO", "CALL", "OTHR"],
        53 => &["EURO", "AMER", "ASIA", "BERM", "OTHR"],
        56 => &["PHYS", "CASH", "OPTL"],
        61 => &["RFPT", "NLIQ", "OILQ", "PRIC", "SIZE", "ILQD"],
        62 => &["SESH", "SSEX", "SELL", "UNDI"],
        63 => &["BENC", "ACTX", "LRGS", "ILQD", "SIZE", "CANC", "AMND", "SDIV", "PRIC", "DUPL", "TNCP", "TPAC", "XFPH"],
        _ => &[],
    }
}

const OTHER_WORDS: &[&str] = &[
    "NEW", "CXL", "TRUE", "FALSE", "true", "DEAL", "MTCH", "AOTC", "INCR", "PUTO", "OTHR", "EURO", "PHYS", "RFPT",
    "ILQD", "SESH", "BENC", "XFPH", "SIZE", "PRIC", "NORE", "INTC", "PNDG", "NOAP", "0", "1", "ALGO:", "EUR", "AMND",
];

/// D(n, f, m) behind a prefix, and whether a sign may come first.
#[derive(Clone, Copy)]
pub struct Amount {
    pub prefix: &'static str,
    pub n: usize,
    pub f: usize,
    pub m: usize,
    pub signed: bool,
}

const fn unsigned(prefix: &'static str, n: usize, f: usize, m: usize) -> Amount {
    Amount { prefix, n, f, m, signed: false }
}

const fn signed(prefix: &'static str, n: usize, f: usize, m: usize) -> Amount {
    Amount { prefix, n, f, m, signed: true }
}

/// The decimal forms of a cell.
pub fn decimals(cell: usize) -> &'static [Amount] {
    const QUANTITIES: &[Amount] =
        &[unsigned("UNT:", 18, 17, 19), unsigned("NOM:", 18, 5, 19), unsigned("MON:", 18, 5, 19)];
    const PRICES: &[Amount] = &[
        unsigned("PC:", 11, 10, 19),
        signed("MV:", 18, 13, 19),
        unsigned("YLD:", 11, 10, 12),
        unsigned("BP:", 18, 17, 19),
    ];
    match cell {
        30 => QUANTITIES,
        33 | 51 => PRICES,
        35 => const { &[unsigned("", 18, 5, 19)] },
        38 => const { &[signed("", 18, 5, 19)] },
        _ => const { &[unsigned("", 18, 17, 19)] },
    }
}

fn is_in(alphabet: &'static [u8]) -> impl Fn(u8) -> bool {
    move |byte| alphabet.contains(&byte)
}

fn is_printable(byte: u8) -> bool {
    (0x20..=0x7e).contains(&byte)
}

/// Puts a byte that is not allowed somewhere into a text that is not empty.
fn spoil(rng: &mut Rng, mut text: Vec<u8>, allowed: impl Fn(u8) -> bool) -> Vec<u8> {
    let place = match rng.below(4) {
        0 => 0,
        1 => text.len() - 1,
        _ => rng.below(text.len()),
    };
    text[place] = rng.of_those(EDGES, |byte| !allowed(*byte)).expect("some edge is not allowed");
    text
}

/// A text of an alphabet, of a length often at the edge.
fn well(rng: &mut Rng, alphabet: &[u8], most: usize) -> Vec<u8> {
    let length = match rng.below(4) {
        0 => 1,
        1 => most,
        _ => rng.between(1, most),
    };
    rng.text(alphabet, length)
}

/// The same, too long or spoilt.
fn badly(rng: &mut Rng, alphabet: &'static [u8], most: usize) -> Vec<u8> {
    if rng.one_in(2) {
        let length = if rng.one_in(2) { most + 1 } else { rng.between(most + 1, most + 20) };
        return rng.text(alphabet, length);
    }
    let text = well(rng, alphabet, most);
    spoil(rng, text, is_in(alphabet))
}

/// A text of one length only, of another length or spoilt.
fn badly_fixed(rng: &mut Rng, alphabet: &'static [u8], length: usize) -> Vec<u8> {
    match rng.below(4) {
        0 => rng.text(alphabet, length + 1),
        1 if length > 1 => rng.text(alphabet, length - 1),
        _ => {
            let text = rng.text(alphabet, length);
            spoil(rng, text, is_in(alphabet))
        }
    }
}

fn well_decimal(rng: &mut Rng, Amount { n, f, m, signed, .. }: Amount) -> Vec<u8> {
    let mut text = Vec::new();
    if signed && rng.one_in(2) {
        text.push(rng.of(b"+-"));
    }
    let (before, places) = match rng.below(6) {
        // Whole numbers, the longest too.
        0 => (n, None),
        1 => (rng.between(1, n), None),
        // Nothing after the point.
        2 => (rng.between(1, n.min(m - 1)), Some(0)),
        // As many places as there may be; as long as it may be; anything between.
        3 => {
            let places = f.min(m - 2);
            (rng.between(1, n.min(m - 1 - places)), Some(places))
        }
        4 => {
            let before = rng.between((m - 1 - f).max(1), n.min(m - 1));
            (before, Some(m - 1 - before))
        }
        _ => {
            let before = rng.between(1, n.min(m - 1));
            (before, Some(rng.between(0, f.min(m - 1 - before))))
        }
    };
    text.extend(rng.text(DIGITS, before));
    if let Some(places) = places {
        text.push(b'.');
        text.extend(rng.text(DIGITS, places));
    }
    text
}

/// What is malformed whatever its digits are: zeros in place of some do not mend it.
fn bad_decimal(rng: &mut Rng, Amount { n, f, m, signed, .. }: Amount) -> Vec<u8> {
    let number = |rng: &mut Rng, before: usize, places: usize| {
        [rng.text(DIGITS, before), b".".to_vec(), rng.text(DIGITS, places)].concat()
    };
    let mut text = match rng.below(12) {
        // A digit too many; a place too many.
        0 => rng.text(DIGITS, n + 1),
        1 => number(rng, n + 1, 0),
        2 | 3 => number(rng, 1, f + 1),
        // One longer than allowed, though neither part is too long.
        4 | 5 => {
            let before = rng.between(m - f.min(m - 1), n.min(m - 1));
            number(rng, before, m - before)
        }
        6 => number(rng, 0, f.min(2)),
        7 => [number(rng, 1, 1), b".".to_vec()].concat(),
        8 => {
            let text = number(rng, 2, 2);
            spoil(rng, text, |byte| is_in(b"0123456789.+-")(byte))
        }
        9 => Vec::new(),
        10 => [&rng.text(DIGITS, 1)[..], rng.of(&[&b"+"[..], b"-", b"-1", b".+1", b".-"])].concat(),
        _ => {
            let sign = if signed { rng.of(&["+", "-", "+-", "--", "++", "-+"]) } else { rng.of(&["+", "-"]) };
            let rest = if sign.len() == 1 && signed { Vec::new() } else { rng.text(DIGITS, 1) };
            return [sign.as_bytes(), &rest].concat();
        }
    };
    if signed && !text.is_empty() && rng.one_in(3) {
        text.insert(0, rng.of(b"+-"));
    }
    text
}

/// Zeros for all digits of a text.
fn to_zeros(text: &mut [u8]) {
    text.iter_mut().filter(|byte| byte.is_ascii_digit()).for_each(|digit| *digit = b'0');
}

/// Zeros for some digits of a number: for those in front, those at the end, or all. Its form stays what it is.
fn zeroed(rng: &mut Rng, mut number: Vec<u8>) -> Vec<u8> {
    let edge = rng.below(number.len() + 1);
    match rng.below(4) {
        0 => to_zeros(&mut number[..edge]),
        1 => to_zeros(&mut number[edge..]),
        _ => to_zeros(&mut number),
    }
    number
}

/// Another digit than zero in a number that is zero: the last one or any.
fn with_a_digit(rng: &mut Rng, mut number: Vec<u8>) -> Vec<u8> {
    let digits: Vec<usize> = (0..number.len()).filter(|&place| number[place].is_ascii_digit()).collect();
    let place = if rng.one_in(2) { digits[digits.len() - 1] } else { rng.of(&digits) };
    number[place] = rng.of(b"159");
    number
}

const WELL_DATES: &[&str] = &[
    "1900-01-01", "1900-02-28", "1999-12-31", "2000-02-29", "2018-01-03", "2024-02-29", "2096-02-29", "2100-02-28",
    "2400-02-29", "9999-12-31", "2021-04-30", "2021-06-30", "2021-09-30", "2021-11-30", "2021-01-31", "1904-02-29",
];

pub const BAD_DATES: &[&str] = &[
    "1899-12-31", "1900-02-29", "2023-02-29", "2100-02-29", "2200-02-29", "2024-02-30", "2021-04-31", "2021-06-31",
    "2021-09-31", "2021-11-31", "2021-01-32", "2021-00-10", "2021-13-01", "2021-01-00", "2021-1-01", "2021-01-1",
    "20210101", "2021/01/01", "2021-01-01 ", " 2021-01-01", "2021-01-01Z", "02021-01-01", "0000-01-01", "0999-12-31",
    "10000-01-01", "+021-01-01", "2021-01-0a", "2O21-01-01", "2021-01", "01-01-2021", "2021-01--1", "2021:01:01",
    "202a-01-01", "2021-0:-01", "2021-01-3:", "2021-99-99", "2021-12-3", "-",
];

/// Just beyond.
const NEARLY_TIMES: &[&str] =
    &["T24:00:00Z", "T23:60:00Z", "T23:59:60Z", "T23:59:59.Z", "T23:59:59.1234567Z", "T23:59:59"];

const BAD_TIMES: &[&str] = &[
    "t23:59:59Z", "T23:59:59z", " 23:59:59Z", "T3:59:59Z", "T23:59Z", "T23:59:59,5Z", "T23:59:59.5",
    "T23:59:59.12345aZ", "T23-59-59Z", "T23:59:59Z ", "T2a:00:00Z", "T00:a0:00Z", "T00:00:0:Z", "T00:00:00+00:00", "",
    "Z", "T", "T00:00:00.+5Z", "T00:00:00.-Z", "T99:00:00Z", "T00:00:00ZZ", "T00:00:00..1Z", "T00:00:00.1.Z",
];

/// Characters at the edges of the lengths of UTF-8.
const CHARACTERS: &[char] = &[
    ' ', '~', 'a', 'Z', '0', '"', '\u{80}', '\u{9f}', 'ä', 'Ł', 'é', '\u{7ff}', '\u{800}', '山', '\u{d7ff}',
    '\u{e000}', '\u{fffd}', '\u{ffff}', '\u{10000}', '😀', '\u{10ffff}',
];

/// What is not UTF-8, or not allowed in a text.
const BAD_CHARACTERS: &[&[u8]] = &[
    b"\0", b"\t", b"\n", b"\x1f", b"\x7f", b"\x80", b"\xbf", b"\xc0\x80", b"\xc1\xbf", b"\xc2", b"\xc2\x7f",
    b"\xc2\xc0", b"\xdf\x20", b"\xe0\x9f\xbf", b"\xe0\x80\x80", b"\xe2\x82", b"\xe2\x28\xa1", b"\xed\xa0\x80",
    b"\xed\xbf\xbf", b"\xf0\x8f\xbf\xbf", b"\xf0\x9f\x98", b"\xf4\x90\x80\x80", b"\xf5\x80\x80\x80",
    b"\xf8\x88\x80\x80\x80", b"\xfe", b"\xff", b"\xef\xbf", b"\xe1\x80\xc0", b"\xf1\x80\x80\x7f",
];

fn characters(rng: &mut Rng, length: usize) -> String {
    // Long texts of one kind of character, short ones of any.
    if length > 20 && rng.one_in(2) {
        let one = rng.of(CHARACTERS);
        return (0..length).map(|_| one).collect();
    }
    (0..length).map(|_| rng.of(CHARACTERS)).collect()
}

fn well_text(rng: &mut Rng, most: usize) -> Vec<u8> {
    let length = match rng.below(5) {
        0 => 1,
        1 => most,
        _ => rng.between(1, 20),
    };
    characters(rng, length).into_bytes()
}

fn bad_text(rng: &mut Rng, most: usize) -> Vec<u8> {
    if rng.one_in(4) {
        let length = rng.between(most + 1, most + 3);
        return characters(rng, length).into_bytes();
    }
    let (before, after) = (rng.below(3), rng.below(3));
    let before = characters(rng, before).into_bytes();
    [before, rng.of(BAD_CHARACTERS).to_vec(), characters(rng, after).into_bytes()].concat()
}

/// A person's identifier of the right shape, after the scheme, with this country.
pub fn well_shaped(rng: &mut Rng, scheme: &str, country: &[u8]) -> Vec<u8> {
    let mut rest = if scheme == "CONCAT:" {
        // As names are written, filled up with #; or # anywhere behind the first letter.
        let name = |rng: &mut Rng| {
            let letters = rng.below(5);
            let filled = [rng.text(CAPITALS, letters), vec![b'#'; 4 - letters]].concat();
            let rest = if rng.one_in(3) { rng.text(b"AMZ##", 4) } else { filled };
            [rng.text(CAPITALS, 1), rest].concat()
        };
        [rng.text(DIGITS, 8), name(rng), name(rng)].concat()
    } else {
        let alphabet: &[u8] = match country {
            b"FI" => b"0123456789ABCDEFGHIJKLMNOPQRSTUVWXYZ+-+-+-",
            b"LV" => b"0123456789ABCDEFGHIJKLMNOPQRSTUVWXYZ------",
            _ => CODE,
        };
        let length = rng.of(&[1, 2, 8, 10, 33]);
        rng.text(alphabet, length)
    };
    rest.splice(0..0, country.iter().copied());
    rest
}

/// A person's identifier of the wrong shape: 1 to 35 printable characters. It starts with the country, or not
/// with two capitals.
pub fn badly_shaped(rng: &mut Rng, scheme: &str, country: &[u8]) -> Vec<u8> {
    let mut text = well_shaped(rng, scheme, country);
    let others: &[u8] = b" !#+-./:;@[_`{}~az";
    if scheme == "CONCAT:" {
        match rng.below(8) {
            0 => {
                text.pop();
            }
            1 => text.push(rng.of(b"A#0")),
            2 => text[rng.between(2, 9)] = rng.of(b"A#/:"),
            3 => text[10] = rng.of(b"###0@["),
            4 => text[15] = rng.of(b"###9`a"),
            5 => text[rng.between(11, 14)] = rng.of(b"0-@[\"$ a"),
            6 => text[rng.between(16, 19)] = rng.of(b"0-@[\"$ a"),
            _ => text[rng.below(2)] = rng.of(b"0#a[@"),
        }
        return text;
    }
    match rng.below(5) {
        0 => text.truncate(2),
        1 => text.truncate(1),
        2 => text[rng.below(2)] = rng.of(b"0#a[@9 "),
        _ => {
            let allowed: &[u8] = match country {
                b"FI" => b"+-",
                b"LV" => b"-",
                _ => b"",
            };
            let place = rng.between(2, text.len() - 1);
            let near: &[u8] = if country != b"FI" && rng.one_in(2) { b"+-" } else { others };
            text[place] = rng.of_those(near, |byte| !allowed.contains(byte)).expect("others");
        }
    }
    text
}

const SCHEMES: &[&str] = &["CCPT:", "NIDN:", "CONCAT:"];

/// Which kinds of party a cell takes.
fn takes(cell: usize) -> &'static [&'static str] {
    match cell {
        7 | 16 => &["INTC", "LEI:", "MIC:", "CCPT:", "NIDN:", "CONCAT:"],
        12 | 21 => &["LEI:", "CCPT:", "NIDN:", "CONCAT:"],
        57 => &["ALGO:", "CCPT:", "NIDN:", "CONCAT:"],
        _ => &["NORE", "ALGO:", "CCPT:", "NIDN:", "CONCAT:"],
    }
}

/// A party of some kind, well formed for the cell; persons of any country and, where the cell allows it, of
/// any shape.
fn well_party(rng: &mut Rng, cell: usize, kind: &str) -> Vec<u8> {
    let country = match rng.below(4) {
        0 => *b"FI",
        1 => *b"LV",
        2 => *b"DE",
        _ => rng.array(CAPITALS),
    };
    let rest = match kind {
        "LEI:" => make_lei(rng).to_vec(),
        "MIC:" => rng.text(CODE, 4),
        "ALGO:" => well(rng, ALPHANUMERIC, 50),
        "INTC" | "NORE" => Vec::new(),
        _ if cell == 57 || cell == 59 => well_shaped(rng, kind, &country),
        _ => match rng.below(3) {
            0 => well_shaped(rng, kind, &country),
            1 => badly_shaped(rng, kind, &country),
            _ => well(rng, b" !\"#$%&'()*+,-./09:;<=>?@AZ[]^_`az{}~", 35),
        },
    };
    [kind.as_bytes(), &rest].concat()
}

fn bad_party(rng: &mut Rng, cell: usize) -> Vec<u8> {
    let kind = rng.of(takes(cell));
    match rng.below(6) {
        0 => other_kind_of_party(rng, cell),
        1 => no_kind_of_party(rng),
        _ => [kind.as_bytes(), &bad_identifier(rng, cell, kind)].concat(),
    }
}

/// A kind that exists, but not for the cell.
fn other_kind_of_party(rng: &mut Rng, cell: usize) -> Vec<u8> {
    let all = ["INTC", "LEI:", "MIC:", "CCPT:", "NIDN:", "CONCAT:", "ALGO:", "NORE"];
    let kind = rng.of_those(&all, |kind| !takes(cell).contains(kind)).expect("no cell takes all kinds");
    well_party(rng, 7, kind)
}

/// A kind that does not exist.
fn no_kind_of_party(rng: &mut Rng) -> Vec<u8> {
    let start = rng.of(&[
        "", "lei:", "LEI", "MIC", "MIC;", "CCPT", "CONCAT", "NIDN ", "INTC:", " INTC", "INT", "NOREX", "Algo:", "ALGO",
        ":", "XYZ:", "CONCA:",
    ]);
    let rest = if start.ends_with(':') || start.is_empty() { rng.text(CODE, 20) } else { Vec::new() };
    [start.as_bytes(), &rest].concat()
}

/// What may not follow the kind.
fn bad_identifier(rng: &mut Rng, cell: usize, kind: &str) -> Vec<u8> {
    match kind {
        "INTC" | "NORE" => rng.text(EDGES, 1),
        "LEI:" => bad_lei(rng),
        "MIC:" => badly_fixed(rng, CODE, 4),
        "ALGO:" => match rng.below(4) {
            0 => Vec::new(),
            _ => badly(rng, ALPHANUMERIC, 50),
        },
        _ => match rng.below(5) {
            0 => Vec::new(),
            1 => {
                let text = well_shaped(rng, kind, b"DE");
                spoil(rng, text, is_printable)
            }
            2 => rng.text(CAPITALS, 36),
            _ if cell == 57 || cell == 59 => badly_shaped(rng, kind, b"DE"),
            _ => rng.text(CODE, 40),
        },
    }
}

fn bad_lei(rng: &mut Rng) -> Vec<u8> {
    let mut lei = make_lei(rng).to_vec();
    match rng.below(5) {
        0 => {
            lei.pop();
        }
        1 => lei.push(b'0'),
        2 => lei[rng.between(18, 19)] = rng.of(b"AZa /:"),
        3 => lei.truncate(18),
        _ => lei[rng.below(18)] = rng.of(b"az-/:@[` \x80"),
    }
    lei
}

/// A moment, for cell 28.
fn well_moment(rng: &mut Rng) -> Vec<u8> {
    let time = rng.of(&["00:00:00", "23:59:59", "09:09:09", "19:00:59", "20:59:00"]);
    let fraction = rng.of(&["", ".0", ".9", ".12", ".123", ".1234", ".12345", ".123456", ".999999"]);
    format!("{}T{time}{fraction}Z", rng.of(WELL_DATES)).into_bytes()
}

/// Cells 30, 33, 35, 38, 46 and 51.
fn well_amount(rng: &mut Rng, cell: usize) -> Vec<u8> {
    if (cell == 33 || cell == 51) && rng.one_in(4) {
        return rng.of(&["PNDG", "NOAP"]).as_bytes().to_vec();
    }
    let form = rng.of(decimals(cell));
    let mut number = well_decimal(rng, form);
    if rng.one_in(2) {
        number = zeroed(rng, number);
    }
    // Units are not zero.
    if form.prefix == "UNT:" && !number.iter().any(|byte| (b'1'..=b'9').contains(byte)) {
        number = with_a_digit(rng, number);
    }
    [form.prefix.as_bytes(), &number].concat()
}

/// Cell 47.
fn well_underlying(rng: &mut Rng) -> Vec<u8> {
    let kind = rng.of(&underlying::KINDS);
    match rng.below(4) {
        0 => underlying::without_legs(rng, kind, Size::Any),
        1 => underlying::with_wrong_check_digit(rng, kind),
        _ => underlying::with_legs(rng, kind, Size::Any),
    }
}

/// A well formed value of a cell, not blank, often at the edge of its form. What rules say of it is open, and what
/// cell 47 makes of cell 49.
pub fn well_formed(rng: &mut Rng, cell: usize) -> Vec<u8> {
    match cell {
        2 | 3 => well(rng, CODE, 52),
        40 => well(rng, ALPHANUMERIC, 35),
        36 => rng.text(CODE, 4),
        43 => rng.text(CAPITALS, 6),
        4 | 6 | 26 | 27 => {
            let mut lei = make_lei(rng);
            if rng.one_in(2) {
                lei[18..].copy_from_slice(&rng.array::<2>(DIGITS));
            }
            lei.to_vec()
        }
        7 | 12 | 16 | 21 | 57 | 59 => {
            let kind = rng.of(takes(cell));
            well_party(rng, cell, kind)
        }
        8 | 17 | 37 | 58 | 60 => rng.text(CAPITALS, 2),
        31 | 34 | 39 | 44 | 52 => rng.text(CAPITALS, 3),
        45 => [rng.of(&["FX:", "INTRST:"]).as_bytes(), &rng.text(CAPITALS, 3)].concat(),
        9 | 10 | 13 | 14 | 18 | 19 | 22 | 23 => well_text(rng, 140),
        42 => well_text(rng, 350),
        11 | 15 | 20 | 24 | 54 | 55 => rng.of(WELL_DATES).as_bytes().to_vec(),
        28 => well_moment(rng),
        41 => make_isin(rng).to_vec(),
        47 => well_underlying(rng),
        48 => {
            let length = rng.of(&[1, 2, 20, 400]);
            rng.text(b" ~+-{0:}#MNTH", length)
        }
        49 => underlying::any_index_term(rng),
        30 | 33 | 35 | 38 | 46 | 51 => well_amount(rng, cell),
        _ => rng.of(words(cell)).as_bytes().to_vec(),
    }
}

/// Cell 45.
fn bad_second_currency(rng: &mut Rng) -> Vec<u8> {
    if rng.below(3) == 0 {
        let wrong = ["EUR", "FX", "FX:", "INTRST:", "FX EUR", "fx:EUR", "INTRST:EURO", "INTRST", "F:EUR", "FX:FX:EUR"];
        return rng.of(&wrong).as_bytes().to_vec();
    }
    [rng.of(&["FX:", "INTRST:"]).as_bytes(), &badly_fixed(rng, CAPITALS, 3)].concat()
}

/// Cell 28.
fn bad_moment(rng: &mut Rng) -> Vec<u8> {
    let (day, time) = match rng.below(3) {
        0 => (rng.of(BAD_DATES), "T12:00:00Z"),
        1 => (rng.of(WELL_DATES), rng.of(NEARLY_TIMES)),
        _ => (rng.of(WELL_DATES), rng.of(BAD_TIMES)),
    };
    [day, time].concat().into_bytes()
}

/// Cell 41.
fn bad_isin(rng: &mut Rng) -> Vec<u8> {
    let mut isin = make_isin(rng);
    match rng.below(9) {
        0 => return isin[..11].to_vec(),
        1 => return [&isin[..], b"0"].concat(),
        2 => isin[11] = rng.of(b"AZ/:a"),
        3 => isin[rng.below(2)] = rng.of(b"@[a"),
        4 => isin[rng.between(2, 10)] = rng.of(b"a/:@[ "),
        // A digit for a letter, and a check digit that is right.
        5 => {
            isin[rng.below(2)] = rng.of(DIGITS);
            isin = with_check_digit(isin);
        }
        _ => isin[11] = b'0' + (isin[11] - b'0' + rng.between(1, 9) as u8) % 10,
    }
    isin.to_vec()
}

/// Cell 48, and cell 49 whatever cell 47 holds.
pub fn bad_index_text(rng: &mut Rng) -> Vec<u8> {
    if rng.one_in(3) {
        let length = rng.of(&[401, 401, 405]);
        return rng.text(CODE, length);
    }
    let length = rng.of(&[1, 2, 30, 400]);
    let text = rng.text(CODE, length);
    spoil(rng, text, is_printable)
}

/// Units that are zero, in any writing.
fn zero_units(rng: &mut Rng) -> Vec<u8> {
    let units = decimals(30)[0];
    let mut number = well_decimal(rng, units);
    to_zeros(&mut number);
    [units.prefix.as_bytes(), &number].concat()
}

/// Cells 30, 33, 35, 38, 46 and 51.
fn bad_amount(rng: &mut Rng, cell: usize) -> Vec<u8> {
    if cell == 30 && rng.one_in(8) {
        return zero_units(rng);
    }
    if rng.one_in(6) {
        let wrong: &[&str] = match cell {
            30 => &["UNT:0", "UNT:0.", "UNT", "1", "unt:1", "NOM", "MON", "NOM:-1", "UNT:+1", "QTY:1", "MON1"],
            33 | 51 => &[
                "PNDG:", "NOAP ", "pndg", "1", "MV", "MV1", "PC", "PC1", "mv:1", "BP", "YLD", "YLD:-1", "BP:+1",
                "PC:-0", "PNDGX", "NOA", "MV::1",
            ],
            _ => &["EUR", "1,5", "1e3", "MV:1", "0x10", "1 000", ".", "..", "1.2.3"],
        };
        return rng.of(wrong).as_bytes().to_vec();
    }
    loop {
        let form = rng.of(decimals(cell));
        let mut number = bad_decimal(rng, form);
        // Also too long by zeros alone.
        if rng.one_in(3) {
            number = zeroed(rng, number);
        }
        let value = [form.prefix.as_bytes(), &number].concat();
        // A blank cell would not be malformed.
        if !value.is_empty() {
            return value;
        }
    }
}

/// Another word than those of an enumeration.
fn bad_word(rng: &mut Rng, cell: usize) -> Vec<u8> {
    loop {
        let word = rng.of(words(cell)).as_bytes();
        let value = match rng.below(5) {
            0 => word.to_ascii_lowercase(),
            1 => word[..word.len() - 1].to_vec(),
            2 => [word, &rng.text(CAPITALS, 1)].concat(),
            3 => rng.of(OTHER_WORDS).as_bytes().to_vec(),
            _ => spoil(rng, word.to_vec(), |_| false),
        };
        if !words(cell).iter().any(|word| word.as_bytes() == value) {
            return value;
        }
    }
}

/// A value with a blank at one end. Where a blank may stand at the end, it comes first.
fn with_blank(rng: &mut Rng, cell: usize) -> Vec<u8> {
    let value = well_formed(rng, cell);
    let in_front = rng.one_in(2);
    if in_front || matches!(cell, 7 | 12 | 16 | 21 | 47) {
        [b" ", &value[..]].concat()
    } else {
        [&value[..], b" "].concat()
    }
}

/// A malformed value of a cell, whatever the others hold; now and then blank, where the cell is needed.
pub fn malformed(rng: &mut Rng, cell: usize) -> Vec<u8> {
    if NEEDED.contains(&cell) && rng.one_in(5) {
        return Vec::new();
    }
    if rng.one_in(12) && ![9, 10, 13, 14, 18, 19, 22, 23, 42, 48, 49].contains(&cell) {
        return with_blank(rng, cell);
    }
    match cell {
        2 | 3 => badly(rng, CODE, 52),
        40 => badly(rng, ALPHANUMERIC, 35),
        36 => badly_fixed(rng, CODE, 4),
        43 => badly_fixed(rng, CAPITALS, 6),
        4 | 6 | 26 | 27 => bad_lei(rng),
        7 | 12 | 16 | 21 | 57 | 59 => bad_party(rng, cell),
        8 | 17 | 37 | 58 | 60 => badly_fixed(rng, CAPITALS, 2),
        31 | 34 | 39 | 44 | 52 => badly_fixed(rng, CAPITALS, 3),
        45 => bad_second_currency(rng),
        9 | 10 | 13 | 14 | 18 | 19 | 22 | 23 => bad_text(rng, 140),
        42 => bad_text(rng, 350),
        11 | 15 | 20 | 24 | 54 | 55 => rng.of(BAD_DATES).as_bytes().to_vec(),
        28 => bad_moment(rng),
        41 => bad_isin(rng),
        47 => underlying::bad_underlying(rng),
        48 | 49 => bad_index_text(rng),
        30 | 33 | 35 | 38 | 46 | 51 => bad_amount(rng, cell),
        _ => bad_word(rng, cell),
    }
}

/// A value with one byte changed, added or taken out, wherever that leads.
pub fn nudged(rng: &mut Rng, mut value: Vec<u8>) -> Vec<u8> {
    if value.is_empty() {
        return value;
    }
    let place = rng.below(value.len());
    let near = match rng.below(3) {
        0 => value[place].wrapping_add(1),
        1 => value[place].wrapping_sub(1),
        _ => rng.of(EDGES),
    };
    let byte = if near == b'|' { b'~' } else { near };
    match rng.below(6) {
        0 => value.insert(place, byte),
        1 => {
            value.remove(place);
        }
        _ => value[place] = byte,
    }
    value
}

/// A scheme for persons.
pub fn scheme(rng: &mut Rng) -> &'static str {
    rng.of(SCHEMES)
}
