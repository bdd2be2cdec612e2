//! Clean lines by the kind of their instrument.

use super::classes::any_class;
use super::draft::{Draft, Instrument, Maker, Want};
use super::rng::CAPITALS;
use super::world::Venue;

#[derive(Clone, Copy, Debug)]
pub enum Kind {
    Share,
    Bond,
    Option,
    Future,
    Swap,
    Warrant,
    Other,
}

pub const KINDS: [Kind; 7] =
    [Kind::Share, Kind::Bond, Kind::Option, Kind::Future, Kind::Swap, Kind::Warrant, Kind::Other];

impl Maker {
    /// A clean new line of the world's trading day.
    pub fn trade(&mut self, kind: Kind, want: Want) -> Draft {
        let instrument = self.instrument(kind);
        // The list knows no instrument under XXXX.
        let venue: fn(&Venue) -> bool = match instrument {
            Instrument::Listed(_) => |venue| venue.mic != *b"XXXX",
            _ => |_| true,
        };
        self.clean(Want { t: Some(self.world.t), venue: Some(venue), instrument: Some(instrument), ..want })
    }

    /// Shares and bonds are listed as often as not, any listed instrument that is no debt passing for a share; most
    /// others go by their classification.
    fn instrument(&mut self, kind: Kind) -> Instrument {
        let t = self.world.t;
        match kind {
            Kind::Share if self.rng.one_in(2) => self.class(b'E', b"SPCFLD"),
            Kind::Share => Instrument::Listed(
                self.isin_where(|world, isin| world.instrument_listed(isin, t) && !world.listed_debt(isin, t)),
            ),
            Kind::Bond if self.rng.one_in(2) => self.class(b'D', b"BCTNEY"),
            Kind::Bond => Instrument::Listed(self.isin_where(|world, isin| world.listed_bond(isin, t))),
            Kind::Option => self.class(b'O', b"CPM"),
            Kind::Future => self.class(b'F', b"FC"),
            Kind::Swap => self.class(b'S', b"RTECFM"),
            Kind::Warrant => self.class(b'R', b"WF"),
            Kind::Other if self.rng.one_in(4) => Instrument::Nothing,
            Kind::Other if self.rng.one_in(4) => {
                Instrument::Listed(self.isin_where(|world, isin| world.instrument_listed(isin, t)))
            }
            Kind::Other => {
                let first = self.rng.of(b"HJCILKMT");
                self.class(first, CAPITALS)
            }
        }
    }

    /// A classification of this first letter and one of these second ones.
    fn class(&mut self, first: u8, seconds: &[u8]) -> Instrument {
        let mut class = any_class(&mut self.rng);
        class[0] = first;
        class[1] = self.rng.of(seconds);
        Instrument::Class(class)
    }
}
