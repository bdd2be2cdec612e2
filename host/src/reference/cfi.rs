//! Classifications (CFI) and the patterns that the rules name. A pattern's `*` stands for any letter; short
//! patterns are filled up with `*`.

/// Six capitals.
#[derive(Clone, Copy, Debug, PartialEq, Eq)]
pub struct Cfi<'a>(&'a [u8; 6]);

impl<'a> Cfi<'a> {
    pub fn read(text: &'a [u8]) -> Option<Cfi<'a>> {
        let letters: &[u8; 6] = text.try_into().ok()?;
        letters.iter().all(u8::is_ascii_uppercase).then_some(Cfi(letters))
    }

    fn is(self, pattern: &str) -> bool {
        pattern.bytes().zip(self.0).all(|(wanted, &letter)| wanted == b'*' || wanted == letter)
    }

    pub fn is_any(self, patterns: &[&str]) -> bool {
        patterns.iter().any(|pattern| self.is(pattern))
    }
}

pub const DEBT: &[&str] = &["D"];
pub const BONDS: &[&str] = &["DB", "DC", "DT", "DN"];
pub const CREDIT_SWAPS: &[&str] = &["SC"];
pub const SWAPS: &[&str] = &["S"];

pub const INDEX_NAME_NEEDED: &[&str] = &["O**I**", "O**N**", "FFI", "FFN", "RWI", "RFI"];
pub const INDEX_NAME_BARRED: &[&str] = &["DB", "DT", "DY", "ES", "EP", "EC", "EF", "EL", "ED", "EM", "EX", "C"];
pub const INDEX_TERM_NEEDED: &[&str] = &["O**N**", "FFN"];

pub const OPTIONS: &[&str] = &["O", "H", "RW"];
pub const OPTIONS_AND_FURTHER_ENTITLEMENTS: &[&str] = &["O", "H", "RW", "RF"];
pub const NO_OPTIONS: &[&str] = &["F", "S", "E", "C", "D", "J"];

/// Which option type (cell 50) which classification wants.
pub const OPTION_TYPES: &[(&[u8], &[&str])] = &[
    (b"CALL", &["OC", "H**A**", "H**B**", "H**C**", "RW**C*"]),
    (b"PUTO", &["OP", "H**D**", "H**E**", "H**F**", "RW**P*"]),
    (b"OTHR", &["OM", "H**G**", "H**H**", "H**I**", "RW**B*"]),
];

pub const MATURITY_BARRED: &[&str] = &["R", "O", "F", "S", "E", "C", "H", "J"];
pub const EXPIRY_NEEDED: &[&str] = &["O", "F", "JC**F*"];
pub const EXPIRY_BARRED: &[&str] = &["E", "C", "D"];

/// Which delivery type (cell 56) which classification wants.
pub const DELIVERY_TYPES: &[(&[u8], &[&str])] = &[
    (
        b"PHYS",
        &[
            "OC**P*", "OP**P*", "FF**P*", "FC**P*", "SR***P", "ST***P", "SE***P", "SC***P", "SF***P", "SM***P",
            "HR***P", "HT***P", "HE***P", "HC***P", "HF***P", "HM***P", "IF***P", "JE***P", "JF***P", "JC***P",
            "JR***P", "JT***P", "LL***P",
        ],
    ),
    (
        b"CASH",
        &[
            "OC**C*", "OP**C*", "FF**C*", "FC**C*", "SR***C", "ST***C", "SE***C", "SC***C", "SM***C", "HR***C",
            "HT***C", "HE***C", "HC***C", "HF***C", "HM***C", "JE***C", "JF***C", "JC***C", "JR***C", "JT***C",
            "LL***C",
        ],
    ),
];

#[cfg(test)]
mod tests {
    use super::*;

    fn cfi(text: &str) -> Cfi<'_> {
        Cfi::read(text.as_bytes()).unwrap()
    }

    #[test]
    fn patterns() {
        assert!(cfi("HTAXXP").is("HT***P"));
        assert!(!cfi("HTAXPX").is("HT***P"));
        assert!(cfi("RWSTCA").is("RW**C*") && !cfi("RWSTPC").is("RW**C*"));
        assert!(cfi("DBFTFB").is_any(BONDS) && !cfi("DDFTFB").is_any(BONDS));
        assert!(Cfi::read(b"DB**FB").is_none() && Cfi::read(b"DBFTF").is_none());
        for (_, patterns) in OPTION_TYPES.iter().chain(DELIVERY_TYPES) {
            assert!(patterns.iter().all(|pattern| pattern.len() == 2 || pattern.len() == 6));
        }
    }
}
