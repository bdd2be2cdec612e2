//! What a classification asks of the other cells, said here a second time: letter by letter, where the
//! reference has tables of patterns.

use super::rng::{Rng, CAPITALS};

/// What a classification asks of one cell.
#[derive(Clone, Copy, Debug, PartialEq, Eq)]
pub enum Need {
    Must,
    Never,
    Free,
}

use Need::{Free, Must, Never};

/// What a classification asks of the cells 30, 33, 35, 38 and 47 to 56.
#[derive(Clone, Copy, Debug)]
pub struct Needs {
    /// Units are not priced in per cent.
    pub debt: bool,
    pub net_amount: Need,
    pub up_front: Need,
    pub swap: bool,
    pub index_name: Need,
    pub index_term: Need,
    pub option_type: Need,
    pub wanted_type: Option<&'static str>,
    pub strike: Need,
    pub exercise: Need,
    pub maturity: Need,
    pub expiry: Need,
    pub wanted_delivery: Option<&'static str>,
}

impl Needs {
    /// The cell that a rule by classification looks at, with what is asked of it.
    pub fn cell(&self, code: u16) -> (usize, Need) {
        match code {
            350 => (35, self.net_amount),
            380 => (38, self.up_front),
            480 | 481 => (48, self.index_name),
            490 => (49, self.index_term),
            500 | 501 => (50, self.option_type),
            510 | 511 => (51, self.strike),
            530 | 531 => (53, self.exercise),
            540 | 542 => (54, self.maturity),
            550 | 551 => (55, self.expiry),
            _ => unreachable!("{code} asks for more than a cell filled or blank"),
        }
    }
}

fn must_if(condition: bool) -> Need {
    if condition {
        Must
    } else {
        Free
    }
}

pub fn needs([a, b, c, d, e, f]: [u8; 6]) -> Needs {
    let option_need = match (a, b) {
        (b'F' | b'S' | b'E' | b'C' | b'D' | b'J', _) => Never,
        (b'O' | b'H', _) | (b'R', b'W') => Must,
        _ => Free,
    };
    Needs {
        debt: a == b'D',
        net_amount: must_if(a == b'D' && b"BCTN".contains(&b)),
        up_front: must_if(a == b'S' && b == b'C'),
        swap: a == b'S',
        index_name: match (a, b, c, d) {
            (b'O', _, _, b'I' | b'N') | (b'F', b'F', b'I' | b'N', _) | (b'R', b'W' | b'F', b'I', _) => Must,
            (b'D', b'B' | b'T' | b'Y', _, _) | (b'C', _, _, _) => Never,
            (b'E', b'S' | b'P' | b'C' | b'F' | b'L' | b'D' | b'M' | b'X', _, _) => Never,
            _ => Free,
        },
        index_term: must_if(matches!((a, b, c, d), (b'O', _, _, b'N') | (b'F', b'F', b'N', _))),
        option_type: option_need,
        wanted_type: wanted_type(a, b, d, e),
        strike: option_need,
        exercise: if a == b'R' && b == b'F' { Must } else { option_need },
        maturity: match a {
            b'D' => Must,
            b'R' | b'O' | b'F' | b'S' | b'E' | b'C' | b'H' | b'J' => Never,
            _ => Free,
        },
        expiry: match (a, b, e) {
            (b'O' | b'F', _, _) | (b'J', b'C', b'F') => Must,
            (b'E' | b'C' | b'D', _, _) => Never,
            _ => Free,
        },
        wanted_delivery: wanted_delivery(a, b, e, f),
    }
}

fn wanted_type(a: u8, b: u8, d: u8, e: u8) -> Option<&'static str> {
    match (a, b, d, e) {
        (b'O', b'C', _, _) | (b'H', _, b'A'..=b'C', _) | (b'R', b'W', _, b'C') => Some("CALL"),
        (b'O', b'P', _, _) | (b'H', _, b'D'..=b'F', _) | (b'R', b'W', _, b'P') => Some("PUTO"),
        (b'O', b'M', _, _) | (b'H', _, b'G'..=b'I', _) | (b'R', b'W', _, b'B') => Some("OTHR"),
        _ => None,
    }
}

fn wanted_delivery(a: u8, b: u8, e: u8, f: u8) -> Option<&'static str> {
    let (letter, cash_too) = match (a, b) {
        (b'O', b'C' | b'P') | (b'F', b'F' | b'C') => (e, true),
        (b'S', b'R' | b'T' | b'E' | b'C' | b'M') => (f, true),
        (b'H', b'R' | b'T' | b'E' | b'C' | b'F' | b'M') => (f, true),
        (b'J', b'E' | b'F' | b'C' | b'R' | b'T') | (b'L', b'L') => (f, true),
        (b'S' | b'I', b'F') => (f, false),
        _ => return None,
    };
    match letter {
        b'P' => Some("PHYS"),
        b'C' if cash_too => Some("CASH"),
        _ => None,
    }
}

/// A classification as it comes: often of letters that some pattern names.
pub fn any_class(rng: &mut Rng) -> [u8; 6] {
    let mut class = if rng.one_in(3) { rng.array(CAPITALS) } else { rng.array(b"ABCDEFGHINPXSTMWOPCINPCF") };
    class[0] = if rng.one_in(8) { rng.of(CAPITALS) } else { rng.of(b"ESDDCROOFFHHSIJLKMT") };
    let seconds: &[u8] = match class[0] {
        b'O' => b"CPM",
        b'F' => b"FC",
        b'S' => b"RTECFM",
        b'H' => b"RTECFM",
        b'J' => b"EFCRT",
        b'D' => b"BCTNYDEWGAMSX",
        b'E' => b"SPCFLDMXUY",
        b'R' => b"WFASPD",
        b'I' => b"F",
        b'L' => b"L",
        _ => CAPITALS,
    };
    if !rng.one_in(6) {
        class[1] = rng.of(seconds);
    }
    class
}

/// The patterns of a rule by classification, short ones unfilled, as the paper has them.
pub fn patterns(code: u16) -> &'static [&'static str] {
    match code {
        330 | 540 => &["D"],
        350 => &["DB", "DC", "DT", "DN"],
        380 => &["SC"],
        473 => &["S"],
        480 => &["O**I**", "O**N**", "FFI", "FFN", "RWI", "RFI"],
        481 => &["DB", "DT", "DY", "ES", "EP", "EC", "EF", "EL", "ED", "EM", "EX", "C"],
        490 => &["O**N**", "FFN"],
        500 | 510 => &["O", "H", "RW"],
        530 => &["O", "H", "RW", "RF"],
        501 | 511 | 531 => &["F", "S", "E", "C", "D", "J"],
        502 => &[
            "OC", "H**A**", "H**B**", "H**C**", "RW**C*", "OP", "H**D**", "H**E**", "H**F**", "RW**P*", "OM", "H**G**",
            "H**H**", "H**I**", "RW**B*",
        ],
        542 => &["R", "O", "F", "S", "E", "C", "H", "J"],
        550 => &["O", "F", "JC**F*"],
        551 => &["E", "C", "D"],
        560 => &[
            "OC**P*", "OP**P*", "FF**P*", "FC**P*", "SR***P", "ST***P", "SE***P", "SC***P", "SF***P", "SM***P",
            "HR***P", "HT***P", "HE***P", "HC***P", "HF***P", "HM***P", "IF***P", "JE***P", "JF***P", "JC***P",
            "JR***P", "JT***P", "LL***P", "OC**C*", "OP**C*", "FF**C*", "FC**C*", "SR***C", "ST***C", "SE***C",
            "SC***C", "SM***C", "HR***C", "HT***C", "HE***C", "HC***C", "HF***C", "HM***C", "JE***C", "JF***C",
            "JC***C", "JR***C", "JT***C", "LL***C",
        ],
        _ => &[],
    }
}

/// The rules that have patterns.
pub const CODES: [u16; 19] =
    [330, 350, 380, 473, 480, 481, 490, 500, 501, 502, 510, 511, 530, 531, 540, 542, 550, 551, 560];

/// A classification of the pattern.
pub fn class_of(rng: &mut Rng, pattern: &str) -> [u8; 6] {
    let mut class = rng.array(CAPITALS);
    for (letter, wanted) in class.iter_mut().zip(pattern.bytes()) {
        if wanted != b'*' {
            *letter = wanted;
        }
    }
    class
}

/// A classification beside the pattern: one letter of it changed, or two exchanged. It may still match another
/// pattern of the rule, or even this one.
pub fn class_beside(rng: &mut Rng, pattern: &str) -> [u8; 6] {
    let mut class = class_of(rng, pattern);
    if rng.one_in(4) {
        let place = rng.below(5);
        class.swap(place, place + 1);
    } else {
        let fixed: Vec<usize> = (0..pattern.len()).filter(|&place| pattern.as_bytes()[place] != b'*').collect();
        class[rng.of(&fixed)] = rng.of(CAPITALS);
    }
    class
}
