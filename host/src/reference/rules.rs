//! The 73 rules. Each is a closure that takes the cells it names with `?`, so that a cell with a form finding
//! ends it unviolated.
//!
//! `a? && b?` may leave `b` unread: then `a` was false and the rule is not violated either way. Where one of
//! several conditions is enough (`||`), every cell is read first.

use super::calendar::{Day, Moment};
use super::cfi::{self, Cfi};
use super::forms::{isin_check, lei_check, Party, Price, Quantity};
use super::lists::{LeiTerms, Lists, VenueKinds};
use super::register::Standing;
use super::report::{Cancellation, Form, Report};
use super::verdict::Verdict;
use super::{Lei, Mic};

/// Currency codes that no cell may hold.
const SPECIAL_CURRENCIES: [&[u8; 3]; 12] =
    [b"XAG", b"XAU", b"XBA", b"XBB", b"XBC", b"XBD", b"XDR", b"XEU", b"XFU", b"XPD", b"XPT", b"XXX"];

/// The first trading day to be reported.
const FIRST_DAY: u32 = 20180103;

/// The last trading day for which a party's LEI may have been registered on any day.
const LAST_OF_ANY_REGISTRATION: u32 = 20180702;

/// The codes of the rules on one party.
struct PartyCodes {
    lei: u16,
    country: u16,
    /// Decision makers are no venues.
    mic: Option<u16>,
    concat_birth: u16,
    shape: u16,
    birth: u16,
}

const BUYER: PartyCodes = PartyCodes { lei: 70, country: 71, mic: Some(72), concat_birth: 73, shape: 74, birth: 110 };
const BUYER_DECIDER: PartyCodes =
    PartyCodes { lei: 120, country: 121, mic: None, concat_birth: 122, shape: 123, birth: 150 };
const SELLER: PartyCodes =
    PartyCodes { lei: 160, country: 161, mic: Some(162), concat_birth: 163, shape: 164, birth: 200 };
const SELLER_DECIDER: PartyCodes =
    PartyCodes { lei: 210, country: 211, mic: None, concat_birth: 212, shape: 213, birth: 240 };

/// The codes for a trade off any venue: XXXX and XOFF.
fn off_venue(mic: &Mic) -> bool {
    mic == b"XXXX" || mic == b"XOFF"
}

fn lei_good(lists: &Lists, lei: &Lei, day: Day, terms: LeiTerms) -> bool {
    lei_check(lei) && lists.lei_known(lei, day, terms)
}

/// What is asked of an LEI in 7, 12, 16 and 21: there are two sets of conditions, and the trading day alone chooses.
fn party_terms(t: Day) -> LeiTerms {
    if t.number() <= LAST_OF_ANY_REGISTRATION {
        LeiTerms::AnyRegistration
    } else {
        LeiTerms::Registered
    }
}

/// The rules for CXL: 024, 025 and 060.
pub fn judge_cancellation(
    report: &Cancellation,
    lists: &Lists,
    moment: Moment,
    standing: Form<Standing>,
    verdict: &mut Verdict,
) {
    verdict.rule(24, || Ok(standing? == Standing::Absent));
    verdict.rule(25, || Ok(standing? == Standing::Cancelled));
    verdict.rule(60, || Ok(!lei_good(lists, report.submitter?, moment.day, LeiTerms::Registered)));
}

/// The rules for NEW: all but 024 and 025.
pub fn judge_new(report: &Report, lists: &Lists, moment: Moment, standing: Form<Standing>, verdict: &mut Verdict) {
    verdict.rule(23, || Ok(standing? == Standing::Live));
    judge_entities(report, lists, moment, verdict);
    judge_parties(report, lists, verdict);
    judge_time_and_capacity(report, moment, verdict);
    judge_currencies(report, lists, verdict);
    judge_venue(report, lists, verdict);
    judge_listed_instrument(report, lists, verdict);
    judge_dates(report, verdict);
    judge_underlying(report, verdict);
    if let Ok(Some(cfi)) = report.cfi {
        judge_classification(report, cfi, verdict);
    }
}

/// T: the day of cell 28.
fn trading_day(report: &Report) -> Form<Day> {
    report.traded.map(|traded| traded.day)
}

/// The same month and day five years before, and 28 February for 29 February, since that year is no leap year. It is a
/// number yyyymmdd and no `Day`: before 1905 it comes out below every day there is.
fn five_years_before(s: Day) -> u32 {
    let month_and_day = match s.number() % 10_000 {
        229 => 228,
        same => same,
    };
    (s.number() / 10_000 - 5) * 10_000 + month_and_day
}

/// LEIs that stand alone in a cell: 4, 6, 26, 27.
fn judge_entities(report: &Report, lists: &Lists, moment: Moment, verdict: &mut Verdict) {
    let t = trading_day(report);
    verdict.rule(40, || Ok(report.investment_firm? && !lei_good(lists, report.entity?, t?, LeiTerms::NotLapsed)));
    verdict.rule(41, || Ok(!report.investment_firm? && !lei_good(lists, report.entity?, t?, LeiTerms::Registered)));
    verdict.rule(60, || Ok(!lei_good(lists, report.submitter?, moment.day, LeiTerms::Registered)));
    for (code, transmitter) in [(260, report.buyer_transmitter), (270, report.seller_transmitter)] {
        verdict.rule(code, || match (transmitter?, t?) {
            (Some(lei), t) => Ok(!lei_good(lists, lei, t, LeiTerms::Registered)),
            (None, _) => Ok(false),
        });
    }
}

/// Buyer, seller and those who decide for them: 7, 12, 16, 21, with their dates of birth, and the countries
/// of the branches, 8 and 17.
fn judge_parties(report: &Report, lists: &Lists, verdict: &mut Verdict) {
    let t = trading_day(report);
    for (cells, codes) in [
        (report.buyer, BUYER),
        (report.buyer_decider, BUYER_DECIDER),
        (report.seller, SELLER),
        (report.seller_decider, SELLER_DECIDER),
    ] {
        match cells.party {
            Ok(Some(Party::Lei(lei))) => {
                verdict.rule(codes.lei, || t.map(|t| !lei_good(lists, lei, t, party_terms(t))));
            }
            Ok(Some(Party::Mic(mic))) => {
                if let Some(code) = codes.mic {
                    verdict.rule(code, || {
                        let kinds = lists.venue_on(mic, t?);
                        Ok(off_venue(mic) || !(kinds.eea || kinds.outside))
                    });
                }
            }
            Ok(Some(Party::Person(person))) => {
                if let Some(country) = person.country() {
                    verdict.rule(codes.country, || Ok(!lists.country_on(country, t?)));
                }
                verdict.rule(codes.shape, || Ok(!person.is_well_shaped()));
                verdict.rule(codes.concat_birth, || match (person.birth(), cells.birth?) {
                    (Some(in_concat), Some(birth)) => Ok(in_concat != birth.number()),
                    _ => Ok(false),
                });
            }
            _ => {}
        }
        verdict.rule(codes.birth, || Ok(matches!(cells.birth?, Some(birth) if birth > t?)));
    }
    for (code, branch) in [(80, report.buyer_branch), (170, report.seller_branch)] {
        verdict.rule(code, || Ok(matches!(branch?, Some(country) if !lists.country_on(country, t?))));
    }
}

/// When and as what was traded: 25, 28, 29, and what follows from DEAL.
fn judge_time_and_capacity(report: &Report, moment: Moment, verdict: &mut Verdict) {
    verdict.rule(251, || Ok(report.capacity? != b"AOTC" && report.transmitted?));
    verdict.rule(280, || Ok(report.traded? >= moment));
    verdict.rule(281, || {
        let t = report.traded?.day.number();
        Ok(t < FIRST_DAY || t < five_years_before(moment.day))
    });
    verdict.rule(290, || {
        let (entity, buyer, seller) = (report.entity?, report.buyer.party?, report.seller.party?);
        let own = Some(Party::Lei(entity));
        Ok(report.capacity? == b"DEAL" && buyer != own && seller != own)
    });
    verdict.rule(570, || {
        Ok(report.capacity? == b"DEAL"
            && report.buyer_transmitter?.is_none()
            && report.seller_transmitter?.is_none()
            && report.investor?.is_none())
    });
}

fn judge_currencies(report: &Report, lists: &Lists, verdict: &mut Verdict) {
    let t = trading_day(report);
    for (code, currency, pre_euro_serves) in [
        (310, report.quantity_currency, true),
        (340, report.price_currency, false),
        (440, report.notional_1, false),
        (451, report.notional_2, false),
        (520, report.strike_currency, false),
    ] {
        verdict.rule(code, || {
            let (Some(currency), t) = (currency?, t?) else { return Ok(false) };
            let served = lists.currency_on(currency, t) || (pre_euro_serves && lists.pre_euro(currency));
            Ok(!served || SPECIAL_CURRENCIES.contains(&currency))
        });
    }
}

fn judge_venue(report: &Report, lists: &Lists, verdict: &mut Verdict) {
    let t = trading_day(report);
    let on_t = || -> Form<(bool, VenueKinds)> {
        let mic = report.venue?;
        Ok((off_venue(mic), lists.venue_on(mic, t?)))
    };
    let on_t = on_t();
    verdict.rule(30, || {
        let (off, kinds) = on_t?;
        Ok(report.venue_reference?.is_some() && (off || kinds.internaliser || kinds.outside))
    });
    verdict.rule(360, || {
        let (off, kinds) = on_t?;
        Ok(!off && !kinds.any())
    });
    verdict.rule(361, || {
        let (isin, t) = (report.isin?, t?);
        Ok(report.venue? == b"XXXX" && isin.is_some_and(|isin| lists.instrument_on(isin, t)))
    });
    verdict.rule(362, || Ok(report.transmitted? && !off_venue(report.venue?)));
    verdict.rule(370, || {
        let (_, kinds) = on_t?;
        Ok(report.membership?.is_none() && (kinds.eea || kinds.outside))
    });
    verdict.rule(371, || Ok(matches!(report.membership?, Some(country) if !lists.country_on(country, t?))));
    verdict.rule(372, || {
        let (off, kinds) = on_t?;
        Ok(report.membership?.is_some() && (off || kinds.internaliser))
    });
}

/// 331 and 351: what the instrument list says of cell 41.
fn judge_listed_instrument(report: &Report, lists: &Lists, verdict: &mut Verdict) {
    let (Ok(Some(isin)), Ok(t)) = (report.isin, trading_day(report)) else { return };
    let (mut debt, mut bond) = (false, false);
    for cfi in lists.cfis_on(isin, t) {
        debt |= cfi.is_any(cfi::DEBT);
        bond |= cfi.is_any(cfi::BONDS);
    }
    verdict.rule(331, || Ok(debt && units_at_percent(report)?));
    verdict.rule(351, || Ok(bond && report.net_amount?.is_none()));
}

/// Quantity in units, price in per cent.
fn units_at_percent(report: &Report) -> Form<bool> {
    Ok(matches!(report.quantity?, Quantity::Units(_)) && matches!(report.price?, Price::Percent(_)))
}

/// 541 and 552: neither looks at the classification.
fn judge_dates(report: &Report, verdict: &mut Verdict) {
    let t = trading_day(report);
    verdict.rule(541, || Ok(matches!(report.maturity?, Some(maturity) if maturity < t?)));
    verdict.rule(552, || Ok(matches!(report.expiry?, Some(expiry) if expiry < t?)));
}

/// 470, which does not look at the classification, and 473, which asks a swap for legs or the name of an index.
fn judge_underlying(report: &Report, verdict: &mut Verdict) {
    verdict.rule(470, || {
        let Some(underlying) = report.underlying()? else { return Ok(false) };
        Ok(underlying.isins.iter().any(|isin| !isin_check(isin)))
    });
    verdict.rule(473, || {
        let (cfi, underlying, index_name) = (report.cfi?, report.underlying()?, report.index_name?);
        let given = underlying.is_some_and(|given| given.is_swap() && !(given.is_empty() && index_name.is_none()));
        Ok(cfi.is_some_and(|cfi| cfi.is_any(cfi::SWAPS)) && !given)
    });
}

/// The other rules by classification; none matches where cell 43 is blank.
fn judge_classification(report: &Report, cfi: Cfi, verdict: &mut Verdict) {
    let is = |patterns| cfi.is_any(patterns);
    verdict.rule(330, || Ok(is(cfi::DEBT) && units_at_percent(report)?));
    verdict.rule(350, || Ok(is(cfi::BONDS) && report.net_amount?.is_none()));
    verdict.rule(380, || Ok(is(cfi::CREDIT_SWAPS) && report.up_front?.is_none()));

    verdict.rule(480, || Ok(is(cfi::INDEX_NAME_NEEDED) && report.index_name?.is_none()));
    verdict.rule(481, || Ok(is(cfi::INDEX_NAME_BARRED) && report.index_name?.is_some()));
    verdict.rule(490, || Ok(is(cfi::INDEX_TERM_NEEDED) && report.index_term?.is_none()));

    verdict.rule(500, || Ok(is(cfi::OPTIONS) && report.option_type?.is_none()));
    verdict.rule(501, || Ok(is(cfi::NO_OPTIONS) && report.option_type?.is_some()));
    verdict.rule(502, || {
        let Some(given) = report.option_type? else { return Ok(false) };
        Ok(cfi::OPTION_TYPES.iter().any(|&(wanted, patterns)| given != wanted && is(patterns)))
    });
    verdict.rule(510, || Ok(is(cfi::OPTIONS) && report.strike?.is_none()));
    verdict.rule(511, || Ok(is(cfi::NO_OPTIONS) && report.strike?.is_some()));
    verdict.rule(530, || Ok(is(cfi::OPTIONS_AND_FURTHER_ENTITLEMENTS) && report.exercise?.is_none()));
    verdict.rule(531, || Ok(is(cfi::NO_OPTIONS) && report.exercise?.is_some()));

    verdict.rule(540, || Ok(is(cfi::DEBT) && report.maturity?.is_none()));
    verdict.rule(542, || Ok(is(cfi::MATURITY_BARRED) && report.maturity?.is_some()));
    verdict.rule(550, || Ok(is(cfi::EXPIRY_NEEDED) && report.expiry?.is_none()));
    verdict.rule(551, || Ok(is(cfi::EXPIRY_BARRED) && report.expiry?.is_some()));
    verdict.rule(560, || {
        let given = report.delivery?;
        Ok(cfi::DELIVERY_TYPES.iter().any(|&(wanted, patterns)| given != Some(wanted) && is(patterns)))
    });
}
