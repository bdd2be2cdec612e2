//! The 141 codes and the eleven refusals, and where their words stand.

/// The rule codes (CON-...) in rising order.
pub const RULES: [u16; 73] = [
    23, 24, 25, 30, 40, 41, 60, 70, 71, 72, 73, 74, 80, 110, 120, 121, 122, 123, 150, 160, 161, 162, 163, 164, 170,
    200, 210, 211, 212, 213, 240, 251, 260, 270, 280, 281, 290, 310, 330, 331, 340, 350, 351, 360, 361, 362, 370, 371,
    372, 380, 440, 451, 470, 473, 480, 481, 490, 500, 501, 502, 510, 511, 520, 530, 531, 540, 541, 542, 550, 551, 552,
    560, 570,
];

/// Cell forms: code 1000 + f for cell f.
pub const FORMS: u16 = 65;

/// The codes on Polish identifiers (CLT-307 to CLT-309), given only where the call asks for them.
pub const POLISH: [u16; 3] = [3307, 3308, 3309];

/// How many codes there are where the call does not ask for Polish identifiers.
pub const COUNT_WITHOUT_POLISH: usize = RULES.len() + FORMS as usize;

/// How many codes there are.
pub const COUNT: usize = COUNT_WITHOUT_POLISH + POLISH.len();

/// Every code in rising order: the rules, then 1001 to 1065, then those on Polish identifiers.
pub const CODES: [u16; COUNT] = {
    let mut all = [0; COUNT];
    let mut i = 0;
    while i < COUNT {
        all[i] = if i < RULES.len() {
            RULES[i]
        } else if i < COUNT_WITHOUT_POLISH {
            1001 + (i - RULES.len()) as u16
        } else {
            POLISH[i - COUNT_WITHOUT_POLISH]
        };
        i += 1;
    }
    all
};

/// How many codes a call can give, and so how many entries its findings buffer needs.
pub const fn count(polish: bool) -> usize {
    if polish {
        COUNT
    } else {
        COUNT_WITHOUT_POLISH
    }
}

const LARGEST: usize = CODES[COUNT - 1] as usize;

/// For each code its place in `CODES`, 255 elsewhere.
const PLACES: [u8; LARGEST + 1] = {
    let mut places = [255; LARGEST + 1];
    let mut i = 0;
    while i < COUNT {
        places[CODES[i] as usize] = i as u8;
        i += 1;
    }
    places
};

/// The place of a code in `CODES`, which is also the number of its bit.
#[inline]
pub fn place(code: u16) -> usize {
    let place = PLACES[code as usize];
    debug_assert!(place != 255, "no such code: {code}");
    place as usize
}

/// What the codes and refusals mean, in tables. A person at a firm reads the same words.
const TABLES: &str = include_str!("../../docs/CODES.md");

/// The rows of the table whose heading starts so, each as the number in front and what follows it.
fn rows(heading: &'static str) -> impl Iterator<Item = (u16, Vec<&'static str>)> {
    let table = TABLES.lines().skip_while(move |line| !line.starts_with(heading));
    table.take_while(|line| line.starts_with('|')).filter_map(|line| {
        let mut cells = line.trim_matches('|').split('|').map(str::trim);
        let number = cells.next()?.parse().ok()?;
        Some((number, cells.collect()))
    })
}

fn code_rows() -> impl Iterator<Item = (u16, Vec<&'static str>)> {
    rows("| Code |")
}

fn refusal_rows() -> impl Iterator<Item = (u16, Vec<&'static str>)> {
    rows("| No. |")
}

/// A code in words: what is wrong, and in which cells.
pub fn words(code: u16) -> String {
    match code_rows().find(|row| row.0 == code) {
        Some((_, row)) => format!("{} ({})", row[0], row[1]),
        None => "no such code".to_string(),
    }
}

/// An answer in words: 0 or the number of a refusal.
pub fn answer_words(answer: u16) -> &'static str {
    match refusal_rows().find(|row| row.0 == answer) {
        Some((_, row)) => row[0],
        None if answer == 0 => "judged",
        None => "no such answer",
    }
}

#[cfg(test)]
mod tests {
    use super::*;

    #[test]
    fn the_codes_rise_and_have_places() {
        assert_eq!([count(false), count(true), COUNT], [138, 141, 141]);
        assert_eq!(POLISH.map(place), [138, 139, 140]);
        assert!(CODES.windows(2).all(|pair| pair[0] < pair[1]));
        for (i, &code) in CODES.iter().enumerate() {
            assert_eq!(place(code), i);
        }
    }

    #[test]
    fn all_141_codes_and_11_refusals_have_words() {
        assert!(code_rows().map(|row| row.0).eq(CODES));
        assert!(code_rows().all(|(_, row)| row.len() == 3 && row.iter().all(|cell| !cell.is_empty())));
        assert!(refusal_rows().map(|row| row.0).eq(1..=11));
        assert!(refusal_rows().all(|(_, row)| row.len() == 2 && row.iter().all(|cell| !cell.is_empty())));
        assert!(words(23).starts_with("A NEW line for a reference"));
        assert_eq!(words(1064), "Neither TRUE nor FALSE (64 commodity derivative flag)");
        assert_eq!(words(26), "no such code");
        assert_eq!([answer_words(0), answer_words(9)], ["judged", "The line is over 4,096 bytes"]);
        assert_eq!(answer_words(12), "no such answer");
    }
}
