//! The cells of a line, read to what they hold.

use super::calendar::{Day, Moment};
use super::cfi::Cfi;
use super::forms::{self, Decimal, Party, Price, Quantity};
use super::register::Pair;
use super::underlying::{self, Underlying};
use super::verdict::Verdict;
use super::{Isin, Lei, Mic, CELLS};

/// The cell has a form finding: it is malformed, or blank though needed. A rule that reads it stops here.
#[derive(Clone, Copy, Debug, PartialEq, Eq)]
pub struct Malformed;

/// What a cell holds, or that it has a form finding.
pub type Form<T> = Result<T, Malformed>;

/// The same for a cell that may be blank.
pub type Optional<T> = Form<Option<T>>;

/// Reads cells by their numbers and notes those that are malformed.
struct Reader<'r, 'a> {
    cells: &'r [&'a [u8]; CELLS],
    verdict: &'r mut Verdict,
}

impl<'a> Reader<'_, 'a> {
    fn needed<T>(&mut self, cell: usize, form: impl FnOnce(&'a [u8]) -> Option<T>) -> Form<T> {
        form(self.cells[cell - 1]).ok_or_else(|| {
            self.verdict.add(1000 + cell as u16);
            Malformed
        })
    }

    fn optional<T>(&mut self, cell: usize, form: impl FnOnce(&'a [u8]) -> Option<T>) -> Optional<T> {
        if self.cells[cell - 1].is_empty() {
            Ok(None)
        } else {
            self.needed(cell, form).map(Some)
        }
    }

    /// Buyer or seller, with the date of birth.
    fn trader(&mut self, cell: usize, birth_cell: usize) -> PartyCells<'a> {
        let party = self.needed(cell, forms::trader).map(Some);
        PartyCells { party, birth: self.optional(birth_cell, Day::read) }
    }

    /// A decision maker, with the date of birth.
    fn decider(&mut self, cell: usize, birth_cell: usize) -> PartyCells<'a> {
        let party = self.optional(cell, forms::decider);
        PartyCells { party, birth: self.optional(birth_cell, Day::read) }
    }

    /// Cell 49, which goes by cell 47: without that there is nothing to have a term, and where its kind is not to be
    /// told, any text will do.
    fn index_term(&mut self, underlying: &Optional<Underlying>) -> Optional<&'a [u8]> {
        match underlying {
            Ok(Some(underlying)) => self.optional(49, |cell| underlying::index_term(cell, underlying.kind)),
            Ok(None) => self.optional(49, |_| None),
            Err(Malformed) => self.optional(49, forms::index_text),
        }
    }

    fn check<T>(&mut self, cell: usize, form: impl FnOnce(&'a [u8]) -> Option<T>) {
        let _ = self.optional(cell, form);
    }

    /// The cells whose contents no rule reads.
    fn check_the_rest(&mut self) {
        for cell in [9, 10, 13, 14, 18, 19, 22, 23] {
            self.check(cell, forms::text(140));
        }
        self.check(32, forms::one_of(&[b"INCR", b"DECR"]));
        self.check(39, forms::capitals::<3>);
        self.check(40, forms::component);
        self.check(42, forms::text(350));
        self.check(46, forms::multiplier);
        self.check(58, forms::capitals::<2>);
        self.check(60, forms::capitals::<2>);
        self.check(61, forms::one_of(&[b"RFPT", b"NLIQ", b"OILQ", b"PRIC", b"SIZE", b"ILQD"]));
        self.check(62, forms::one_of(&[b"SESH", b"SSEX", b"SELL", b"UNDI"]));
        let words: &[&[u8]] = &[
            b"BENC", b"ACTX", b"LRGS", b"ILQD", b"SIZE", b"CANC", b"AMND", b"SDIV", b"PRIC", b"DUPL", b"TNCP", b"TPAC",
            b"XFPH",
        ];
        self.check(63, forms::one_of(words));
        self.check(64, forms::truth);
        let _ = self.needed(65, forms::truth);
    }
}

/// A party with its date of birth.
#[derive(Clone, Copy, Debug)]
pub struct PartyCells<'a> {
    pub party: Optional<Party<'a>>,
    pub birth: Optional<Day>,
}

/// A new report: every cell that some rule reads.
#[derive(Debug)]
pub struct Report<'a> {
    /// 2
    pub reference: Form<&'a [u8]>,
    /// 3
    pub venue_reference: Optional<&'a [u8]>,
    /// 4
    pub entity: Form<&'a Lei>,
    /// 5
    pub investment_firm: Form<bool>,
    /// 6
    pub submitter: Form<&'a Lei>,
    /// 7, 11
    pub buyer: PartyCells<'a>,
    /// 8
    pub buyer_branch: Optional<&'a [u8; 2]>,
    /// 12, 15
    pub buyer_decider: PartyCells<'a>,
    /// 16, 20
    pub seller: PartyCells<'a>,
    /// 17
    pub seller_branch: Optional<&'a [u8; 2]>,
    /// 21, 24
    pub seller_decider: PartyCells<'a>,
    /// 25
    pub transmitted: Form<bool>,
    /// 26
    pub buyer_transmitter: Optional<&'a Lei>,
    /// 27
    pub seller_transmitter: Optional<&'a Lei>,
    /// 28
    pub traded: Form<Moment>,
    /// 29
    pub capacity: Form<&'a [u8]>,
    /// 30
    pub quantity: Form<Quantity>,
    /// 31
    pub quantity_currency: Optional<&'a [u8; 3]>,
    /// 33
    pub price: Form<Price>,
    /// 34
    pub price_currency: Optional<&'a [u8; 3]>,
    /// 35
    pub net_amount: Optional<Decimal>,
    /// 36
    pub venue: Form<&'a Mic>,
    /// 37
    pub membership: Optional<&'a [u8; 2]>,
    /// 38
    pub up_front: Optional<Decimal>,
    /// 41
    pub isin: Optional<&'a Isin>,
    /// 43
    pub cfi: Optional<Cfi<'a>>,
    /// 44
    pub notional_1: Optional<&'a [u8; 3]>,
    /// 45
    pub notional_2: Optional<&'a [u8; 3]>,
    /// 47
    underlying: Optional<Underlying<'a>>,
    /// 48
    pub index_name: Optional<&'a [u8]>,
    /// 49
    pub index_term: Optional<&'a [u8]>,
    /// 50
    pub option_type: Optional<&'a [u8]>,
    /// 51
    pub strike: Optional<Price>,
    /// 52
    pub strike_currency: Optional<&'a [u8; 3]>,
    /// 53
    pub exercise: Optional<&'a [u8]>,
    /// 54
    pub maturity: Optional<Day>,
    /// 55
    pub expiry: Optional<Day>,
    /// 56
    pub delivery: Optional<&'a [u8]>,
    /// 57
    pub investor: Optional<Party<'a>>,
    /// 59
    pub executor: Form<Party<'a>>,
}

impl<'a> Report<'a> {
    /// Reads every cell after the first and notes the malformed ones.
    pub fn read(cells: &[&'a [u8]; CELLS], verdict: &mut Verdict) -> Report<'a> {
        let mut reader = Reader { cells, verdict };
        reader.check_the_rest();
        let underlying = reader.optional(47, underlying::underlying);
        Report {
            reference: reader.needed(2, forms::reference),
            venue_reference: reader.optional(3, forms::reference),
            entity: reader.needed(4, forms::lei),
            investment_firm: reader.needed(5, forms::truth),
            submitter: reader.needed(6, forms::lei),
            buyer: reader.trader(7, 11),
            buyer_branch: reader.optional(8, forms::capitals),
            buyer_decider: reader.decider(12, 15),
            seller: reader.trader(16, 20),
            seller_branch: reader.optional(17, forms::capitals),
            seller_decider: reader.decider(21, 24),
            transmitted: reader.needed(25, forms::truth),
            buyer_transmitter: reader.optional(26, forms::lei),
            seller_transmitter: reader.optional(27, forms::lei),
            traded: reader.needed(28, Moment::read),
            capacity: reader.needed(29, forms::one_of(&[b"DEAL", b"MTCH", b"AOTC"])),
            quantity: reader.needed(30, forms::quantity),
            quantity_currency: reader.optional(31, forms::capitals),
            price: reader.needed(33, forms::price),
            price_currency: reader.optional(34, forms::capitals),
            net_amount: reader.optional(35, forms::amount),
            venue: reader.needed(36, forms::mic),
            membership: reader.optional(37, forms::capitals),
            up_front: reader.optional(38, forms::signed_amount),
            isin: reader.optional(41, forms::isin),
            cfi: reader.optional(43, Cfi::read),
            notional_1: reader.optional(44, forms::capitals),
            notional_2: reader.optional(45, forms::second_currency),
            index_name: reader.optional(48, forms::index_text),
            index_term: reader.index_term(&underlying),
            underlying,
            option_type: reader.optional(50, forms::one_of(&[b"PUTO", b"CALL", b"OTHR"])),
            strike: reader.optional(51, forms::price),
            strike_currency: reader.optional(52, forms::capitals),
            exercise: reader.optional(53, forms::one_of(&[b"EURO", b"AMER", b"ASIA", b"BERM", b"OTHR"])),
            maturity: reader.optional(54, Day::read),
            expiry: reader.optional(55, Day::read),
            delivery: reader.optional(56, forms::one_of(&[b"PHYS", b"CASH", b"OPTL"])),
            investor: reader.optional(57, forms::investor),
            executor: reader.needed(59, forms::executor),
        }
    }

    /// Cells 4 and 2.
    pub fn pair(&self) -> Form<Pair> {
        Ok(Pair::new(self.entity?, self.reference?))
    }

    /// Cell 47, lent.
    pub fn underlying(&self) -> Optional<&Underlying<'a>> {
        self.underlying.as_ref().map(Option::as_ref).map_err(|malformed| *malformed)
    }
}

/// A cancellation: the only cells of it that are read.
#[derive(Debug)]
pub struct Cancellation<'a> {
    /// 2
    pub reference: Form<&'a [u8]>,
    /// 4
    pub entity: Form<&'a Lei>,
    /// 6
    pub submitter: Form<&'a Lei>,
}

impl<'a> Cancellation<'a> {
    pub fn read(cells: &[&'a [u8]; CELLS], verdict: &mut Verdict) -> Cancellation<'a> {
        let mut reader = Reader { cells, verdict };
        Cancellation {
            reference: reader.needed(2, forms::reference),
            entity: reader.needed(4, forms::lei),
            submitter: reader.needed(6, forms::lei),
        }
    }

    /// Cells 4 and 2.
    pub fn pair(&self) -> Form<Pair> {
        Ok(Pair::new(self.entity?, self.reference?))
    }
}
