//! Settles the month of one plant.

use crate::book::{Account, Book, Enrolment, Reading};
use crate::tariff::{Tariff, ALUMINIUM, COMMISSIONING, PRIORITY, RANKS};

const GRAINS_IN_FEN: i64 = 1_000_000;

pub struct Settlement {
    pub metered: u64,
    pub over: u64,
    pub shortfall: u64,
    /// Fen.
    pub payment: i64,
}

/// Settles a plant by its index, or nothing where it is not metered.
pub fn settle(book: &Book, plant: usize) -> Option<Settlement> {
    let account = &book.accounts[plant];
    let reading = account.reading?;
    let Enrolment { class, approved } = account.enrolment?;
    let tariff = Tariff::new(class, book.month, book.residential, approved);
    let (parts, over) = divide(reading.metered, claims(account, reading));

    let net = pay_contracts(book, plant, &parts, tariff.contract)
        + grains(100 * parts[COMMISSIONING], tariff.commissioning)
        + grains(100 * over, tariff.over)
        - assess(account.contracted(), reading.metered, &tariff)
        - grains(
            100 * (account.sums[ALUMINIUM] - parts[ALUMINIUM]),
            tariff.aluminium,
        )
        + account.side;
    Some(Settlement {
        metered: reading.metered,
        over,
        shortfall: account.contracted().saturating_sub(reading.metered),
        payment: net.div_euclid(GRAINS_IN_FEN),
    })
}

/// Hundredths of a kWh at a price.
fn grains(hundredths: u64, price: u32) -> i64 {
    hundredths as i64 * i64::from(price)
}

/// The claim of each rank on the metered energy.
fn claims(account: &Account, reading: Reading) -> [u64; RANKS] {
    let mut claims = account.sums;
    claims[COMMISSIONING] = reading.commissioning;
    claims[PRIORITY] = claims[PRIORITY].saturating_sub(reading.commissioning);
    claims
}

/// Fills the claims in order; answers what each gets and what is left over.
fn divide(metered: u64, claims: [u64; RANKS]) -> ([u64; RANKS], u64) {
    let mut left = metered;
    let parts = claims.map(|claim| {
        let part = claim.min(left);
        left -= part;
        part
    });
    (parts, left)
}

/// Shares what each rank settled over the plant's contracts, and adds up their amounts in grains.
fn pay_contracts(book: &Book, plant: usize, parts: &[u64; RANKS], price: Option<u32>) -> i64 {
    let sums = &book.accounts[plant].sums;
    let mut claimed = [0; RANKS];
    let mut shared = [0; RANKS];
    let mut amount = 0;
    for contract in &book.contracts {
        if usize::from(contract.plant) != plant || contract.energy == 0 {
            continue;
        }
        let rank = usize::from(contract.rank) - 1;
        claimed[rank] += contract.energy;
        // Both factors are at most 3,000,000,000, so 64 bits hold the product.
        let running = parts[rank] * claimed[rank] / sums[rank];
        let settled = running - shared[rank];
        shared[rank] = running;
        amount += grains(100 * settled, price.unwrap_or(contract.price));
    }
    amount
}

/// What the deviation costs in grains, beyond a free two in a hundred of the contracts.
fn assess(contracted: u64, metered: u64, tariff: &Tariff) -> i64 {
    let (deviation, price) = if metered > contracted {
        (metered - contracted, tariff.assessed_over)
    } else {
        (contracted - metered, tariff.assessed_short)
    };
    grains((100 * deviation).saturating_sub(2 * contracted), price)
}
