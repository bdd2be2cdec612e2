//! Cells 47 and 49: the legs of a swap, and baskets. Both cells are written alike; an item of cell 47 holds an ISIN,
//! an item of cell 49 a term.

use super::{forms, Isin};

/// So many bytes may follow the word of cell 47, and so many cell 49 may have.
const LONGEST: usize = 400;

/// So many items a basket may have.
const MOST_ITEMS: usize = 16;

/// The words of a term.
const UNITS: [&[u8]; 4] = [b"DAYS#", b"WEEK#", b"MNTH#", b"YEAR#"];

/// The word of cell 47. Cell 49 goes by it too.
#[derive(Clone, Copy, Debug, PartialEq, Eq)]
pub enum Kind {
    /// Legs, each with its sign.
    Swap,
    /// A basket without a sign.
    Other,
}

/// Cell 47.
#[derive(Clone, Debug, PartialEq, Eq)]
pub struct Underlying<'a> {
    pub kind: Kind,
    /// The ISINs of all baskets, of the right shape each. A leg has at least one: where there is none, there is no leg.
    pub isins: Vec<&'a Isin>,
}

impl Underlying<'_> {
    pub fn is_swap(&self) -> bool {
        self.kind == Kind::Swap
    }

    /// Is it a word alone?
    pub fn is_empty(&self) -> bool {
        self.isins.is_empty()
    }
}

/// Cell 47.
pub fn underlying(cell: &[u8]) -> Option<Underlying<'_>> {
    let (kind, text) = match cell {
        [b'S', b'W', b'A', b'P', b':', text @ ..] => (Kind::Swap, text),
        [b'O', b'T', b'H', b'R', b':', text @ ..] => (Kind::Other, text),
        _ => return None,
    };
    if text.len() > LONGEST {
        return None;
    }
    let mut cursor = Cursor { rest: text };
    cursor.spaces();
    let isins = if cursor.rest.is_empty() { Vec::new() } else { held_in(cursor, kind, Cursor::isin)? };
    Some(Underlying { kind, isins })
}

/// Cell 49 beside a cell 47 of this kind.
pub fn index_term(cell: &[u8], kind: Kind) -> Option<&[u8]> {
    if cell.len() > LONGEST {
        return None;
    }
    held_in(Cursor { rest: cell }, kind, Cursor::term).map(|_| cell)
}

/// What the items of a text of this kind hold, if nothing else is in it.
fn held_in<'a, T>(mut cursor: Cursor<'a>, kind: Kind, held: impl Fn(&mut Cursor<'a>) -> Option<T>) -> Option<Vec<T>> {
    let mut all = Vec::new();
    if kind == Kind::Swap {
        let first = cursor.sign()?;
        cursor.basket(&held, &mut all)?;
        if !cursor.rest.is_empty() {
            cursor.separator(b';')?;
            if cursor.sign()? == first {
                return None;
            }
            cursor.basket(&held, &mut all)?;
        }
    } else {
        cursor.basket(&held, &mut all)?;
    }
    cursor.rest.is_empty().then_some(all)
}

/// What is left to read. Each function takes off the front what it is named after, or gives nothing where something
/// else stands there.
struct Cursor<'a> {
    rest: &'a [u8],
}

impl<'a> Cursor<'a> {
    fn take(&mut self, count: usize) -> Option<&'a [u8]> {
        let (front, rest) = self.rest.split_at_checked(count)?;
        self.rest = rest;
        Some(front)
    }

    fn byte(&mut self, wanted: u8) -> Option<()> {
        self.rest = self.rest.strip_prefix(&[wanted])?;
        Some(())
    }

    /// Any number of spaces, none too.
    fn spaces(&mut self) {
        while self.byte(b' ').is_some() {}
    }

    /// A colon, comma or semicolon. Only behind these may spaces stand.
    fn separator(&mut self, wanted: u8) -> Option<()> {
        self.byte(wanted)?;
        self.spaces();
        Some(())
    }

    fn sign(&mut self) -> Option<u8> {
        self.take(1).map(|sign| sign[0]).filter(|sign| b"+-".contains(sign))
    }

    /// One to three digits. A fourth is left over, and nothing that may follow starts with a digit.
    fn number(&mut self) -> Option<u16> {
        let length = self.rest.iter().take(3).take_while(|byte| byte.is_ascii_digit()).count();
        let digits = self.take(length).filter(|digits| !digits.is_empty())?;
        Some(digits.iter().fold(0, |number, digit| number * 10 + u16::from(digit - b'0')))
    }

    fn isin(&mut self) -> Option<&'a Isin> {
        self.take(12).and_then(forms::isin_shape)
    }

    fn term(&mut self) -> Option<u16> {
        let unit = self.take(5)?;
        UNITS.contains(&unit).then_some(())?;
        self.number()
    }

    /// A basket in braces: items parted by commas, their indexes rising. What they hold is added to the rest.
    fn basket<T>(&mut self, held: impl Fn(&mut Cursor<'a>) -> Option<T>, all: &mut Vec<T>) -> Option<()> {
        self.byte(b'{')?;
        let mut before = None;
        for _ in 0..MOST_ITEMS {
            let index = self.number()?;
            if before.is_some_and(|before| before >= index) {
                return None;
            }
            before = Some(index);
            self.separator(b':')?;
            all.push(held(self)?);
            if self.byte(b'}').is_some() {
                return Some(());
            }
            self.separator(b',')?;
        }
        None
    }
}

#[cfg(test)]
mod tests {
    use super::*;

    const A: &str = "DE0005557508";
    const B: &str = "BG11FOKAAT18";

    /// How many ISINs cell 47 holds, if it is well formed.
    fn isins(cell: &str) -> Option<usize> {
        underlying(cell.as_bytes()).map(|underlying| underlying.isins.len())
    }

    /// The text with its A and B standing for ISINs.
    fn with_isins(text: &str) -> String {
        text.replace('B', "\u{1}").replace('A', A).replace('\u{1}', B)
    }

    /// How many ISINs follow `SWAP:` and `OTHR:` in such a text, where it is well formed.
    fn swap(text: &str) -> Option<usize> {
        isins(&format!("SWAP:{}", with_isins(text)))
    }

    fn other(text: &str) -> Option<usize> {
        isins(&format!("OTHR:{}", with_isins(text)))
    }

    fn swap_term(cell: &str) -> bool {
        index_term(cell.as_bytes(), Kind::Swap).is_some()
    }

    fn other_term(cell: &str) -> bool {
        index_term(cell.as_bytes(), Kind::Other).is_some()
    }

    /// A basket of items with these indexes.
    fn indexed(indexes: &[&str]) -> String {
        format!("{{{}}}", indexes.iter().map(|index| format!("{index}:A")).collect::<Vec<_>>().join(","))
    }

    #[test]
    fn words() {
        assert_eq!([swap(""), other("")], [Some(0); 2]);
        for wrong in ["", "SWAP", "OTHR", "swap:", "SWAP;", "SWAP :", " SWAP:", "OTHRE:", "SWAP:OTHR:", "OTHR:~"] {
            assert_eq!(isins(wrong), None, "{wrong}");
        }
        let cell = format!("SWAP:{}", with_isins("+{0:A,1:B};-{0:A}"));
        let read = underlying(cell.as_bytes()).unwrap();
        let [a, b] = [A, B].map(|isin| isin.as_bytes());
        assert!(read.is_swap() && !read.is_empty());
        assert_eq!(read.isins, [a, b, a]);
        let read = underlying(b"OTHR: ").unwrap();
        assert!(!read.is_swap() && read.is_empty());
    }

    #[test]
    fn legs_and_signs() {
        for right in ["+{0:A}", "-{0:A}", "+{0:A};-{0:B}", "-{0:A};+{0:A}"] {
            assert!(swap(right).is_some(), "{right}");
            assert_eq!(other(right), None, "{right}");
        }
        assert_eq!(other("{0:A}"), Some(1));
        for wrong in [
            "{0:A}", "+{0:A};+{0:B}", "-{0:A};-{0:B}", "+{0:A};{0:B}", "{0:A};-{0:B}", "+{0:A};", ";", ";+{0:A}",
            "+{0:A};;-{0:B}", "+{0:A};-{0:B};", "+{0:A};-{0:B};+{0:A}", "+{0:A}-{0:B}", "+{0:A},-{0:B}", "++{0:A}",
            "+-{0:A}", "+", "+{0:A};-", "+{0:A}x", "+{0:A}}", "*{0:A}", "+0:A", "+{0:A", "+0:A}",
        ] {
            assert_eq!(swap(wrong), None, "{wrong}");
        }
        for wrong in ["{0:A};{1:B}", "{0:A}{1:B}", "{0:A};", "-{0:A}", "{0:A}x"] {
            assert_eq!(other(wrong), None, "{wrong}");
        }
    }

    #[test]
    fn baskets_and_items() {
        let many = |count: usize| {
            let indexes: Vec<String> = (0..count).map(|index| index.to_string()).collect();
            indexed(&indexes.iter().map(String::as_str).collect::<Vec<_>>())
        };
        assert_eq!([0, 1, 16, 17].map(|count| other(&many(count))), [None, Some(1), Some(16), None]);
        assert_eq!(swap(&format!("+{};-{}", many(8), many(16))), Some(24));
        assert_eq!(swap(&format!("+{};-{}", many(8), many(17))), None);
        assert_eq!(other("{0:A,1:A}"), Some(2));
        for wrong in [
            "{0A}", "{:A}", "{A}", "{0:}", "{0:A,}", "{,0:A}", "{0:A,,1:B}", "{0:A;1:B}", "{0:A1:B}", "{0::A}",
            "{0;A}", "{0,A}", "{{0:A}}", "{0:{A}}", "{0:A:B}", "{}", "{", "}",
        ] {
            assert_eq!(other(wrong), None, "{wrong}");
        }
        for shape in ["de0005557508", "D10005557508", "DE000555750", "DE00055575080", "DE000555750A", "DE00055575a8"] {
            assert_eq!(isins(&format!("OTHR:{{0:{shape}}}")), None, "{shape}");
        }
        // The check digit is no matter of the form.
        assert_eq!(isins("OTHR:{0:DE0005557507}"), Some(1));
        assert_eq!(isins("OTHR:{0:MNTH#3}"), None);
    }

    #[test]
    fn indexes_rise_by_value() {
        for right in
            [&["0"][..], &["999"], &["000"], &["0", "1"], &["9", "10"], &["007", "08"], &["99", "100"], &["1", "002"]]
        {
            assert_eq!(other(&indexed(right)), Some(right.len()), "{right:?}");
        }
        for wrong in [
            &["1", "01"][..],
            &["1", "1"],
            &["10", "9"],
            &["08", "007"],
            &["0", "2", "1"],
            &["0", "1", "001"],
            &["100", "99"],
            &["0000"],
            &["1000"],
            &["0", "0001"],
            &["0", ""],
            &["a"],
            &["+1"],
            &["1", "-2"],
        ] {
            assert_eq!(other(&indexed(wrong)), None, "{wrong:?}");
        }
        assert_eq!(swap("+{5:A,6:B};-{5:A,6:B}"), Some(4));
        assert_eq!(swap("+{5:A};-{1:B,1:A}"), None);
    }

    #[test]
    fn spaces() {
        for right in ["", " ", "   ", "  +{0:  A,   1: B};  -{0: A}", "+{0:A, 1:B}", "+{0:A}; -{0:B}"] {
            assert!(swap(right).is_some(), "{right}");
        }
        for wrong in [
            "+ {0:A}", "+{ 0:A}", "+{0 :A}", "+{0:A }", "+{0:A ,1:B}", "+{0:A} ;-{0:B}", "+{0:A};- {0:B}", "+{0:A} ",
            "+{0:A};-{0:B} ", "+{0:\tA}", "\t", "+{0:A,\u{a0}1:B}",
        ] {
            assert_eq!(swap(wrong), None, "{wrong}");
        }
        assert_eq!([other(" {0: A}"), other("{0: A} "), other("{ 0:A}")], [Some(1), None, None]);
        assert_eq!(isins("OTHR:{0:DE000 557508}"), None);
    }

    #[test]
    fn lengths() {
        let spaced = |count: usize| " ".repeat(count);
        assert_eq!([swap(&spaced(400)), swap(&spaced(401))], [Some(0), None]);
        assert_eq!([other(&spaced(400)), other(&spaced(401))], [Some(0), None]);
        // The basket itself has 16 bytes.
        let basket = |count: usize| other(&format!("{}{{0:A}}", spaced(count)));
        assert_eq!([basket(384), basket(385)], [Some(1), None]);
        let term = |count: usize| format!("{{0:{}DAYS#1}}", spaced(count));
        assert_eq!([term(390).len(), term(391).len()], [400, 401]);
        assert!(other_term(&term(390)) && !other_term(&term(391)));
    }

    #[test]
    fn terms() {
        for right in ["DAYS#1", "WEEK#12", "MNTH#123", "YEAR#0", "MNTH#000", "YEAR#999", " DAYS#1"] {
            assert!(other_term(&format!("{{0:{right}}}")), "{right}");
            assert!(swap_term(&format!("+{{0:{right}}}")), "{right}");
        }
        for wrong in [
            "DAYS#", "DAYS#1234", "DAYS1", "DAYS", "DAY#1", "days#1", "MONTH#1", "WEEKS#1", "YEAR#A", "YEAR#-1",
            "YEAR# 1", "YEAR #1", "YEAR##1", "YEAR#1 ", "", "1", "#1", A,
        ] {
            assert!(!other_term(&format!("{{0:{wrong}}}")), "{wrong}");
        }
        assert!(swap_term("+{0:MNTH#3};-{0: MNTH#3}") && swap_term("-{0:DAYS#1, 1:DAYS#1}"));
        assert!(other_term("{0:DAYS#1,1:DAYS#1}"));
        for wrong in [
            "",
            " ",
            "{0:MNTH#3}",
            " +{0:MNTH#3}",
            "+{0:MNTH#3};+{0:MNTH#3}",
            "SWAP:+{0:MNTH#3}",
            "+{1:DAYS#1,01:DAYS#1}",
            "+{0:MNTH#3};-{0:MNTH#3};+{0:MNTH#3}",
            "+{}",
            "+{0:MNTH#3};",
        ] {
            assert!(!swap_term(wrong), "{wrong}");
        }
        for wrong in ["", " {0:MNTH#3}", "+{0:MNTH#3}", "{0:MNTH#3};{0:MNTH#3}", "OTHR:{0:MNTH#3}", "{0:MNTH#3} "] {
            assert!(!other_term(wrong), "{wrong}");
        }
    }
}
