//! Classes, ranks and prices. Prices are in micro-yuan for each kWh.

pub const RANKS: usize = 7;

/// Places of ranks in an array over all of them.
pub const COMMISSIONING: usize = 2;
pub const ALUMINIUM: usize = 4;
pub const PRIORITY: usize = 5;

#[derive(Clone, Copy, PartialEq, Eq)]
pub enum Class {
    Hydro,
    Coal,
    Gas,
    Renewable,
    Relief,
}

impl Class {
    pub fn from_number(number: u8) -> Option<Class> {
        match number {
            1 => Some(Class::Hydro),
            2 => Some(Class::Coal),
            3 => Some(Class::Gas),
            4 => Some(Class::Renewable),
            5 => Some(Class::Relief),
            _ => None,
        }
    }

    /// Whether a plant of this class may hold contracts of a rank, 1 to 7.
    pub fn holds(self, rank: u8) -> bool {
        match rank {
            6 | 7 => true,
            1 | 2 | 4 | 5 => self == Class::Hydro,
            _ => false,
        }
    }

    pub fn transfers(self) -> bool {
        matches!(self, Class::Hydro | Class::Coal | Class::Gas)
    }
}

#[derive(Clone, Copy)]
enum Season {
    Wet,
    Dry,
    Level,
}

fn season(month: u8) -> Season {
    match month {
        6..=10 => Season::Wet,
        5 | 11 => Season::Level,
        _ => Season::Dry,
    }
}

/// The prices of one plant in one month.
pub struct Tariff {
    /// What every contract is paid at, where it is not its own price.
    pub contract: Option<u32>,
    pub commissioning: u32,
    pub over: u32,
    pub assessed_over: u32,
    pub assessed_short: u32,
    /// Added for each kWh missing in the aluminium rank.
    pub aluminium: u32,
}

const ASSESSED: u32 = 25_372;
const DRY_OVER: u32 = 228_597;

impl Tariff {
    pub fn new(class: Class, month: u8, residential: u32, approved: u32) -> Tariff {
        let season = season(month);
        match class {
            Class::Hydro | Class::Coal | Class::Gas => Tariff::market(class, season, approved),
            Class::Renewable => Tariff::renewable(season, residential, approved),
            Class::Relief => Tariff {
                contract: Some(approved),
                commissioning: approved,
                over: approved,
                assessed_over: ASSESSED,
                assessed_short: ASSESSED,
                aluminium: 0,
            },
        }
    }

    fn market(class: Class, season: Season, approved: u32) -> Tariff {
        let (over, assessed_over, assessed_short) = match season {
            Season::Wet => (0, ASSESSED, 126_859),
            Season::Dry => (DRY_OVER, 0, 207_815),
            Season::Level => (183_612, 0, 166_920),
        };
        let aluminium = match (class, season) {
            (Class::Hydro, Season::Dry) => 60_000,
            _ => 0,
        };
        Tariff {
            contract: None,
            commissioning: approved,
            over,
            assessed_over,
            assessed_short,
            aluminium,
        }
    }

    fn renewable(season: Season, residential: u32, approved: u32) -> Tariff {
        let (paid, over, assessed_over) = match season {
            Season::Wet => (residential, residential, ASSESSED),
            Season::Dry => (approved, DRY_OVER, 0),
            Season::Level => (approved, approved, ASSESSED),
        };
        Tariff {
            contract: Some(paid),
            commissioning: paid,
            over,
            assessed_over,
            assessed_short: ASSESSED,
            aluminium: 0,
        }
    }
}
