//! Texts for cells 47 and 49: legs and baskets made piece by piece, well formed or with a single mistake.

use super::rng::{Rng, DIGITS};
use super::values::bad_index_text;
use super::world::make_isin;

/// How long the text behind the word of cell 47 may be, and cell 49.
const LONGEST: usize = 400;

/// How many items a basket may have.
const MOST_ITEMS: usize = 16;

/// Bytes that stand nowhere in such a text; never the bar.
const STRANGE: &[u8] = b"\0\t\n\x1f!\"$%&'()*./<=>?@[\\]^_`az~\x7f\x80\xa0\xc3\xff";

/// Bytes that part the pieces of a text. No piece has them within.
const MARKS: &[u8] = b"{}:,;+-#";

/// The word of cell 47. Cell 49 goes by it.
#[derive(Clone, Copy, Debug, PartialEq, Eq)]
pub enum Kind {
    Swap,
    Other,
}

pub const KINDS: [Kind; 2] = [Kind::Swap, Kind::Other];

impl Kind {
    fn word(self) -> &'static str {
        match self {
            Kind::Swap => "SWAP:",
            Kind::Other => "OTHR:",
        }
    }

    /// The kind of a cell 47 that is well formed; none where it is blank.
    pub fn of(underlying: &[u8]) -> Option<Kind> {
        KINDS.into_iter().find(|kind| underlying.starts_with(kind.word().as_bytes()))
    }
}

/// How long a text shall be.
#[derive(Clone, Copy, Debug, PartialEq, Eq)]
pub enum Size {
    /// An item or two in each basket, as most reports have.
    Short,
    /// Any, often at an edge: sixteen items, or spaces up to the longest.
    Any,
}

/// What the items of a text hold: ISINs in cell 47, terms in cell 49.
#[derive(Clone, Copy, Debug, PartialEq, Eq)]
enum Holds {
    Isins,
    Terms,
}

#[derive(Clone)]
struct Item {
    value: usize,
    index: String,
    held: Vec<u8>,
}

#[derive(Clone)]
struct Leg {
    sign: &'static str,
    items: Vec<Item>,
}

impl Leg {
    fn bytes(&self) -> Vec<u8> {
        let items: Vec<Vec<u8>> =
            self.items.iter().map(|item| [item.index.as_bytes(), b":", &item.held].concat()).collect();
        [self.sign.as_bytes(), b"{", &items.join(&b','), b"}"].concat()
    }
}

/// A text in pieces. A basket without a sign is a leg with an empty one.
#[derive(Clone)]
struct Text {
    kind: Kind,
    holds: Holds,
    legs: Vec<Leg>,
}

impl Text {
    fn word(&self) -> &'static str {
        match self.holds {
            Holds::Isins => self.kind.word(),
            Holds::Terms => "",
        }
    }

    fn bytes(&self) -> Vec<u8> {
        let legs: Vec<Vec<u8>> = self.legs.iter().map(Leg::bytes).collect();
        [self.word().as_bytes(), &legs.join(&b';')].concat()
    }

    /// How many bytes more there may be.
    fn room(&self) -> usize {
        (LONGEST + self.word().len()).saturating_sub(self.bytes().len())
    }

    /// The text with a few spaces where they may stand.
    fn loosely(&self, rng: &mut Rng) -> Vec<u8> {
        let count = rng.of(&[0, 0, 1, 3]).min(self.room());
        spaced(rng, self.bytes(), count)
    }

    /// The same, or with as many spaces as there may be, or nearly so.
    fn loosely_or_long(&self, rng: &mut Rng) -> Vec<u8> {
        let room = self.room();
        match rng.below(6) {
            0 => spaced(rng, self.bytes(), room),
            1 => {
                let count = rng.between(0, room);
                spaced(rng, self.bytes(), count)
            }
            _ => self.loosely(rng),
        }
    }

    fn some_leg(&mut self, rng: &mut Rng) -> &mut Leg {
        let which = rng.below(self.legs.len());
        &mut self.legs[which]
    }

    fn some_item(&mut self, rng: &mut Rng) -> &mut Item {
        let leg = self.some_leg(rng);
        let which = rng.below(leg.items.len());
        &mut leg.items[which]
    }

    /// Gives a swap its second leg, if it has none.
    fn pair_legs(&mut self) {
        if self.legs.len() == 1 {
            let other = if self.legs[0].sign == "+" { "-" } else { "+" };
            self.legs.push(Leg { sign: other, ..self.legs[0].clone() });
        }
    }

    /// Makes it have every mark that a text of its kind can have: two legs of a swap, two items in a basket.
    fn widen(&mut self, rng: &mut Rng) {
        if self.kind == Kind::Swap {
            self.pair_legs();
        }
        let holds = self.holds;
        let leg = self.some_leg(rng);
        if leg.items.len() == 1 {
            leg.items = items(rng, holds, 2);
        }
    }

    fn isins(&mut self) -> Vec<&mut Vec<u8>> {
        self.legs.iter_mut().flat_map(|leg| &mut leg.items).map(|item| &mut item.held).collect()
    }
}

/// Puts so many spaces where they may stand: all in one place or in several.
fn spaced(rng: &mut Rng, mut text: Vec<u8>, mut count: usize) -> Vec<u8> {
    while count > 0 {
        let places: Vec<usize> = (1..=text.len()).filter(|&place| b":,;".contains(&text[place - 1])).collect();
        if places.is_empty() {
            break;
        }
        let some = if rng.one_in(3) { count } else { rng.between(1, count) };
        let place = rng.of(&places);
        text.splice(place..place, vec![b' '; some]);
        count -= some;
    }
    text
}

/// An index with zeros in front or without.
fn index(rng: &mut Rng, value: usize) -> String {
    let width = rng.of(&[1, 1, 1, 2, 3]);
    format!("{value:0width$}")
}

fn held(rng: &mut Rng, holds: Holds) -> Vec<u8> {
    match holds {
        Holds::Isins => make_isin(rng).to_vec(),
        Holds::Terms => {
            let digits = rng.between(1, 3);
            let unit = rng.of(&["DAYS#", "WEEK#", "MNTH#", "YEAR#"]);
            let count = if rng.one_in(4) { vec![b'0'; digits] } else { rng.text(DIGITS, digits) };
            [unit.as_bytes(), &count].concat()
        }
    }
}

/// So many items, their indexes rising: from 0, across 10 or 100, up to 999 or anywhere, close or apart.
fn items(rng: &mut Rng, holds: Holds, count: usize) -> Vec<Item> {
    let first = match rng.below(6) {
        0 | 1 => 0,
        2 => 10_usize.saturating_sub(rng.between(1, count)),
        3 => 100 - rng.between(1, count),
        4 => 1000 - count,
        _ => rng.between(0, 1000 - count),
    };
    let (mut least, close) = (first, rng.one_in(2));
    let mut items: Vec<Item> = Vec::new();
    for left in (0..count).rev() {
        // Those that follow need an index each.
        let value = if close || rng.one_in(2) { least } else { rng.between(least, 999 - left) };
        least = value + 1;
        let twice = items.last().filter(|_| rng.one_in(8)).map(|item| item.held.clone());
        let held = twice.unwrap_or_else(|| held(rng, holds));
        items.push(Item { value, index: index(rng, value), held });
    }
    items
}

/// A well formed text of so many legs.
fn text(rng: &mut Rng, kind: Kind, holds: Holds, legs: usize, size: Size) -> Text {
    let signs = match kind {
        Kind::Swap => rng.of(&[["+", "-"], ["-", "+"]]),
        Kind::Other => [""; 2],
    };
    let leg = |sign: &'static str| {
        let count = match size {
            Size::Short => rng.of(&[1, 1, 1, 2]),
            Size::Any => {
                let any = rng.between(1, MOST_ITEMS);
                rng.of(&[1, 2, 3, any, any, MOST_ITEMS - 1, MOST_ITEMS, MOST_ITEMS])
            }
        };
        Leg { sign, items: items(rng, holds, count) }
    };
    let mut text = Text { kind, holds, legs: signs.into_iter().take(legs).map(leg).collect() };
    while text.bytes().len() > LONGEST + text.word().len() {
        text.legs.iter_mut().max_by_key(|leg| leg.items.len()).expect("a long leg").items.pop();
    }
    text
}

/// How many legs a text may have that has one at least.
fn some_legs(rng: &mut Rng, kind: Kind) -> usize {
    match kind {
        Kind::Swap => rng.between(1, 2),
        Kind::Other => 1,
    }
}

fn written(rng: &mut Rng, text: &Text, size: Size) -> Vec<u8> {
    match size {
        Size::Short => text.loosely(rng),
        Size::Any => text.loosely_or_long(rng),
    }
}

/// Cell 47 with a leg or two, or a basket, all check digits right.
pub fn with_legs(rng: &mut Rng, kind: Kind, size: Size) -> Vec<u8> {
    let legs = some_legs(rng, kind);
    let text = text(rng, kind, Holds::Isins, legs, size);
    written(rng, &text, size)
}

/// Cell 47 with its word alone.
pub fn without_legs(rng: &mut Rng, kind: Kind, size: Size) -> Vec<u8> {
    let text = text(rng, kind, Holds::Isins, 0, size);
    written(rng, &text, size)
}

/// Cell 49 beside a cell 47 of this kind.
pub fn index_term(rng: &mut Rng, kind: Kind, size: Size) -> Vec<u8> {
    let legs = some_legs(rng, kind);
    let text = text(rng, kind, Holds::Terms, legs, size);
    written(rng, &text, size)
}

/// What cell 49 may hold beside a malformed cell 47: any text that can be printed, a good one of either kind too.
pub fn any_index_term(rng: &mut Rng) -> Vec<u8> {
    if rng.one_in(2) {
        let kind = rng.of(&KINDS);
        return index_term(rng, kind, Size::Any);
    }
    let length = rng.of(&[1, 2, 20, 399, 400]);
    rng.text(b" ~+-{0:}#MNTH", length)
}

fn spoil_check_digit(rng: &mut Rng, isin: &mut [u8]) {
    isin[11] = b'0' + (isin[11] - b'0' + rng.between(1, 9) as u8) % 10;
}

/// Cell 47 in which one ISIN has a wrong check digit, or several: the first, one between, the last, one of the second leg.
pub fn with_wrong_check_digit(rng: &mut Rng, kind: Kind) -> Vec<u8> {
    let legs = if kind == Kind::Swap && !rng.one_in(3) { 2 } else { 1 };
    let mut text = text(rng, kind, Holds::Isins, legs, Size::Any);
    let in_first_leg = text.legs[0].items.len();
    let mut isins = text.isins();
    let count = isins.len();
    let wrong = match rng.below(7) {
        0 => 0..1,
        1 | 2 => count - 1..count,
        3 if count > 2 => {
            let between = rng.between(1, count - 2);
            between..between + 1
        }
        4 if in_first_leg < count => {
            let behind = rng.between(in_first_leg, count - 1);
            behind..behind + 1
        }
        5 => 0..count,
        _ => {
            let any = rng.below(count);
            any..any + 1
        }
    };
    for isin in &mut isins[wrong] {
        spoil_check_digit(rng, isin);
    }
    text.loosely_or_long(rng)
}

/// Makes one mistake in a text that is well formed and has a leg.
type Mistake = fn(&mut Rng, Text) -> Vec<u8>;

/// Each gives a malformed text of either kind, for either cell.
const MISTAKES: [Mistake; 31] = [
    same_signs,
    leg_too_many,
    wrong_sign,
    empty_basket,
    item_too_many,
    index_too_long,
    no_index,
    index_repeated,
    index_falling,
    wrong_held,
    wrong_held,
    held_of_the_other_cell,
    mark_missing,
    mark_missing,
    mark_twice,
    other_mark,
    stray_comma,
    stray_semicolon,
    more_behind,
    |rng, text| space_beside(rng, text, b"}", b""),
    |rng, text| space_beside(rng, text, b",", b""),
    |rng, text| space_beside(rng, text, b";", b""),
    |rng, text| space_beside(rng, text, b":", b""),
    |rng, text| space_beside(rng, text, b"", b"{"),
    |rng, text| space_beside(rng, text, b"", b"+-"),
    |rng, text| space_beside(rng, text, b"#", b"#"),
    |rng, text| space_beside(rng, text, b"", b""),
    space_in_front,
    space_at_the_end,
    other_space,
    strange_byte,
];

/// How many mistakes there are to be made in turn. The last is a text that is too long.
pub const MISTAKE_COUNT: usize = MISTAKES.len() + 1;

/// A text with this mistake, and nothing else wrong. Of a malformed cell 47 no check digit is looked at.
fn mistaken(rng: &mut Rng, kind: Kind, holds: Holds, which: usize) -> Vec<u8> {
    loop {
        let (legs, size) = (some_legs(rng, kind), rng.of(&[Size::Short, Size::Any]));
        let mut text = text(rng, kind, holds, legs, size);
        if holds == Holds::Isins && rng.one_in(3) {
            let item = text.some_item(rng);
            spoil_check_digit(rng, &mut item.held);
        }
        let longest = LONGEST + text.word().len();
        let Some(mistake) = MISTAKES.get(which) else { return too_long(rng, text) };
        let bytes = mistake(rng, text);
        if bytes.len() <= longest {
            return bytes;
        }
    }
}

/// Cell 47 of this kind with this mistake.
pub fn mistaken_underlying(rng: &mut Rng, kind: Kind, which: usize) -> Vec<u8> {
    mistaken(rng, kind, Holds::Isins, which)
}

/// Cell 49 with this mistake, beside a cell 47 of this kind.
pub fn mistaken_index_term(rng: &mut Rng, kind: Kind, which: usize) -> Vec<u8> {
    mistaken(rng, kind, Holds::Terms, which)
}

/// What is near a text for cell 47, but has not even the pieces of one.
const NO_UNDERLYING: &[&str] = &[
    "SWAP", "OTHR", "swap:", "SWAP;", "SWP:", ":", "{0:DE0005557508}", "+{0:DE0005557508}", "SWAP :", "OTHRE:",
    " SWAP:", "SWAP:;", "SWAP:+", "SWAP:{}", "OTHR:,", "OTHR:{", "OTHR:~", "SWAP:OTHR:", "OTHR:SWAP:", "FX:EUR",
];

/// The same for cell 49.
const NO_INDEX_TERM: &[&str] = &[
    "X", " ", "DAX", "MNTH#3", "0:MNTH#3", "{}", "+{}", "+", ";", "{0:DAX}", "SWAP:", "OTHR:", "3", "~", "  {0:MNTH#3}",
];

/// Cell 47, malformed.
pub fn bad_underlying(rng: &mut Rng) -> Vec<u8> {
    let kind = rng.of(&KINDS);
    match rng.below(8) {
        0 => rng.of(NO_UNDERLYING).as_bytes().to_vec(),
        1 => [kind.word().as_bytes(), &bad_index_text(rng)].concat(),
        _ => {
            let which = rng.below(MISTAKE_COUNT);
            mistaken_underlying(rng, kind, which)
        }
    }
}

/// Cell 49, malformed beside a cell 47 of this kind.
pub fn bad_index_term(rng: &mut Rng, kind: Kind) -> Vec<u8> {
    let other = if kind == Kind::Swap { Kind::Other } else { Kind::Swap };
    match rng.below(8) {
        0 => rng.of(NO_INDEX_TERM).as_bytes().to_vec(),
        1 => bad_index_text(rng),
        2 => index_term(rng, other, Size::Any),
        3 => [kind.word().as_bytes(), &index_term(rng, kind, Size::Short)].concat(),
        _ => {
            let which = rng.below(MISTAKE_COUNT);
            mistaken_index_term(rng, kind, which)
        }
    }
}

fn same_signs(rng: &mut Rng, mut text: Text) -> Vec<u8> {
    if text.kind == Kind::Other {
        // Here no sign is right.
        text.legs[0].sign = rng.of(&["+", "-"]);
        return text.loosely(rng);
    }
    text.pair_legs();
    text.legs[1].sign = text.legs[0].sign;
    text.loosely(rng)
}

fn leg_too_many(rng: &mut Rng, mut text: Text) -> Vec<u8> {
    if text.kind == Kind::Swap {
        text.pair_legs();
    }
    let last = text.some_leg(rng).clone();
    text.legs.push(last);
    text.loosely(rng)
}

/// None where there has to be one, one where there is to be none, or no sign at all.
fn wrong_sign(rng: &mut Rng, mut text: Text) -> Vec<u8> {
    let signs: &[&str] = match text.kind {
        Kind::Swap => &["", "", "", "++", "+-", "*", "=", "0"],
        Kind::Other => &["+", "-", "+", "-", "+-", "*"],
    };
    text.some_leg(rng).sign = rng.of(signs);
    text.loosely(rng)
}

fn empty_basket(rng: &mut Rng, mut text: Text) -> Vec<u8> {
    text.some_leg(rng).items.clear();
    text.loosely(rng)
}

fn item_too_many(rng: &mut Rng, mut text: Text) -> Vec<u8> {
    for leg in &mut text.legs {
        leg.items.truncate(1);
    }
    let items = items(rng, text.holds, MOST_ITEMS + 1);
    text.some_leg(rng).items = items;
    text.loosely(rng)
}

/// Four digits, of a number that would be right or is too large.
fn index_too_long(rng: &mut Rng, mut text: Text) -> Vec<u8> {
    if rng.one_in(2) {
        let item = text.some_item(rng);
        item.index = format!("{:04}", item.value);
    } else {
        text.some_leg(rng).items.last_mut().expect("an item").index = rng.of(&["1000", "9999"]).to_string();
    }
    text.loosely(rng)
}

fn no_index(rng: &mut Rng, mut text: Text) -> Vec<u8> {
    text.some_item(rng).index = rng.of(&["", "", "", "", "", "A", "1A", "+1", "-1", "#"]).to_string();
    text.loosely(rng)
}

/// Makes the index of an item that is not the first no greater than the one before.
fn with_index(rng: &mut Rng, mut text: Text, not_greater: impl Fn(&mut Rng, usize) -> usize) -> Vec<u8> {
    let count = rng.of(&[2, 2, 3, 8]);
    for leg in &mut text.legs {
        leg.items.truncate(8);
    }
    let mut items = items(rng, text.holds, count);
    let which = rng.between(1, count - 1);
    let value = not_greater(rng, items[which - 1].value);
    items[which].index = index(rng, value);
    text.some_leg(rng).items = items;
    text.loosely(rng)
}

fn index_repeated(rng: &mut Rng, text: Text) -> Vec<u8> {
    with_index(rng, text, |_, before| before)
}

fn index_falling(rng: &mut Rng, text: Text) -> Vec<u8> {
    with_index(rng, text, |rng, before| if rng.one_in(3) { rng.between(0, before) } else { before.saturating_sub(1) })
}

fn wrong_held(rng: &mut Rng, mut text: Text) -> Vec<u8> {
    let wrong = match text.holds {
        Holds::Isins => wrong_isin(rng),
        Holds::Terms => wrong_term(rng),
    };
    text.some_item(rng).held = wrong;
    text.loosely(rng)
}

/// No ISIN by its shape.
fn wrong_isin(rng: &mut Rng) -> Vec<u8> {
    let mut isin = make_isin(rng).to_vec();
    match rng.below(7) {
        0 => isin.truncate(11),
        1 => isin.push(rng.of(DIGITS)),
        2 => isin[11] = rng.of(b"AZa/@"),
        3 => isin[rng.below(2)] = rng.of(b"09@[a"),
        4 => isin[rng.between(2, 10)] = rng.of(b"az/@[`"),
        5 => isin.clear(),
        _ => isin = rng.of(&["DAX", "SWAP", "EUR", "0", "DE", "XS"]).as_bytes().to_vec(),
    }
    isin
}

/// No term: another word, no digit or a fourth.
fn wrong_term(rng: &mut Rng) -> Vec<u8> {
    let unit = rng.of(&["DAYS", "WEEK", "MNTH", "YEAR"]);
    let text = match rng.below(8) {
        0 => format!("{unit}#"),
        1 => format!("{unit}#{:04}", rng.below(10_000)),
        2 => format!("{unit}{}", rng.below(1000)),
        3 => format!("{}#{}", &unit[..3], rng.below(1000)),
        4 => format!("{unit}S#{}", rng.below(1000)),
        5 => format!("{}#1", unit.to_lowercase()),
        6 => format!("{unit}#{}", rng.of(&["A", "-1", "+1", "1.5", "1A", "/", "1#", "#1"])),
        _ => rng.of(&["", "3", "#3", "MONTH#3", "DAY#3", "YERA#1", "HOUR#1", "MNTH", "DAYT#1", "WEEL#1"]).to_string(),
    };
    text.into_bytes()
}

fn held_of_the_other_cell(rng: &mut Rng, mut text: Text) -> Vec<u8> {
    let other = if text.holds == Holds::Isins { Holds::Terms } else { Holds::Isins };
    text.some_item(rng).held = held(rng, other);
    text.loosely(rng)
}

/// A place of the text where a mark stands.
fn mark_place(rng: &mut Rng, text: &[u8]) -> usize {
    let mark = rng.of(MARKS);
    let places: Vec<usize> = (0..text.len()).filter(|&place| MARKS.contains(&text[place])).collect();
    let chosen = rng.of_those(&places, |&place| text[place] == mark);
    chosen.unwrap_or_else(|| rng.of(&places))
}

fn mark_missing(rng: &mut Rng, text: Text) -> Vec<u8> {
    let mut bytes = text.loosely(rng);
    bytes.remove(mark_place(rng, &bytes));
    bytes
}

fn mark_twice(rng: &mut Rng, text: Text) -> Vec<u8> {
    let mut bytes = text.loosely(rng);
    let place = mark_place(rng, &bytes);
    bytes.insert(place, bytes[place]);
    bytes
}

/// A mark where another has to be. No sign, since one for another may be right.
fn other_mark(rng: &mut Rng, text: Text) -> Vec<u8> {
    let mut bytes = text.loosely(rng);
    let places: Vec<usize> = (0..bytes.len()).filter(|&place| b"{}:,;#".contains(&bytes[place])).collect();
    let place = rng.of(&places);
    bytes[place] = rng.of_those(b"{}:,;#()[]=._ ", |mark| *mark != bytes[place]).expect("another");
    bytes
}

/// A comma too many: in front of the first item or behind the last.
fn stray_comma(rng: &mut Rng, text: Text) -> Vec<u8> {
    let mut bytes = text.loosely(rng);
    let places: Vec<usize> =
        (1..bytes.len()).filter(|&place| bytes[place - 1] == b'{' || bytes[place] == b'}').collect();
    bytes.insert(rng.of(&places), b',');
    bytes
}

/// A semicolon too many: in front of the first leg or behind the last.
fn stray_semicolon(rng: &mut Rng, text: Text) -> Vec<u8> {
    let mut bytes = text.loosely(rng);
    let place = if rng.one_in(3) { text.word().len() } else { bytes.len() };
    bytes.insert(place, b';');
    bytes
}

fn more_behind(rng: &mut Rng, text: Text) -> Vec<u8> {
    let again = text.legs[rng.below(text.legs.len())].bytes();
    let more = rng.of(&[&b"x"[..], b"0", b"A", b"+", b"-", b";", b",", b"; ", b"OTHR:", &again]);
    [&text.loosely(rng), more].concat()
}

/// A space directly in front of one of these marks or behind it, where none may stand; anywhere where there is no such place.
fn space_beside(rng: &mut Rng, mut text: Text, in_front_of: &[u8], behind: &[u8]) -> Vec<u8> {
    text.widen(rng);
    let mut bytes = text.loosely(rng);
    let barred: Vec<usize> =
        (0..=bytes.len()).filter(|&place| place == 0 || !b":,; ".contains(&bytes[place - 1])).collect();
    let follows = |place: usize| place > 0 && behind.contains(&bytes[place - 1]);
    let precedes = |place: usize| bytes.get(place).is_some_and(|next| in_front_of.contains(next));
    let chosen = rng.of_those(&barred, |&place| follows(place) || precedes(place));
    let place = chosen.unwrap_or_else(|| rng.of(&barred));
    bytes.insert(place, b' ');
    bytes
}

fn space_in_front(rng: &mut Rng, text: Text) -> Vec<u8> {
    [b" ", &text.loosely(rng)[..]].concat()
}

fn space_at_the_end(rng: &mut Rng, text: Text) -> Vec<u8> {
    [&text.loosely(rng)[..], b" "].concat()
}

/// A byte that is no space where a space may stand.
fn other_space(rng: &mut Rng, text: Text) -> Vec<u8> {
    let mut bytes = text.loosely(rng);
    let places: Vec<usize> = (1..=bytes.len()).filter(|&place| b":,;".contains(&bytes[place - 1])).collect();
    bytes.insert(rng.of(&places), rng.of(b"\t\t\t\t\0\n\r\x0b\x1f!_\xa0"));
    bytes
}

fn strange_byte(rng: &mut Rng, text: Text) -> Vec<u8> {
    let mut bytes = text.loosely(rng);
    let place = rng.below(bytes.len());
    bytes[place] = rng.of(STRANGE);
    bytes
}

/// One byte too many, or a few, all of them spaces that may stand there.
fn too_long(rng: &mut Rng, text: Text) -> Vec<u8> {
    let count = text.room() + rng.of(&[1, 1, 1, 2, 20]);
    spaced(rng, text.bytes(), count)
}
