//! The month book: plants, their contracts, side balances and readings.

use crate::tariff::{Class, RANKS};

pub const PLANTS: usize = 24;
const CONTRACTS: usize = 256;
const ENERGY_LIMIT: u64 = 3_000_000_000;
const PRICE_LIMIT: u32 = 1_000_000;
const SIDE_LIMIT: i64 = 300_000_000_000_000_000;

/// Why the book declined a call; the discriminant is the number it answers.
#[derive(Clone, Copy)]
pub enum Refusal {
    PastLimit = 1,
    NotEnrolled = 2,
    NoContract = 3,
    AlreadyThere = 4,
    NotPermitted = 6,
    TooMuch = 7,
    Full = 8,
    SumPastLimit = 9,
}

pub struct Contract {
    pub number: u32,
    /// Index of the plant that holds it.
    pub plant: u8,
    pub rank: u8,
    /// kWh.
    pub energy: u64,
    /// Micro-yuan for each kWh.
    pub price: u32,
}

#[derive(Clone, Copy)]
pub struct Enrolment {
    pub class: Class,
    pub approved: u32,
}

#[derive(Clone, Copy)]
pub struct Reading {
    pub metered: u64,
    pub commissioning: u64,
}

#[derive(Clone, Copy, Default)]
pub struct Account {
    pub enrolment: Option<Enrolment>,
    pub reading: Option<Reading>,
    /// Sum of the contracts of each rank.
    pub sums: [u64; RANKS],
    /// Side balance in grains.
    pub side: i64,
}

impl Account {
    pub fn contracted(&self) -> u64 {
        self.sums.iter().sum()
    }

    fn has_room_for(&self, energy: u64) -> bool {
        self.contracted() + energy <= ENERGY_LIMIT
    }
}

pub struct Book {
    pub month: u8,
    pub residential: u32,
    /// By rising number.
    pub contracts: Vec<Contract>,
    pub accounts: [Account; PLANTS],
}

impl Book {
    pub fn open(month: u8, residential: u32) -> Result<Book, Refusal> {
        require((1..=12).contains(&month), Refusal::PastLimit)?;
        check_price(residential)?;
        Ok(Book {
            month,
            residential,
            contracts: Vec::with_capacity(CONTRACTS),
            accounts: [Account::default(); PLANTS],
        })
    }

    pub fn enrol(&mut self, plant: u8, class: u8, approved: u32) -> Result<(), Refusal> {
        let plant = plant_index(plant)?;
        let class = Class::from_number(class).ok_or(Refusal::PastLimit)?;
        check_price(approved)?;

        let enrolment = &mut self.accounts[plant].enrolment;
        require(enrolment.is_none(), Refusal::AlreadyThere)?;
        *enrolment = Some(Enrolment { class, approved });
        Ok(())
    }

    pub fn enter(
        &mut self,
        number: u32,
        plant: u8,
        rank: u8,
        energy: u64,
        price: u32,
    ) -> Result<(), Refusal> {
        check_number(number)?;
        let plant = plant_index(plant)?;
        require((1..=RANKS as u8).contains(&rank), Refusal::PastLimit)?;
        check_energy(energy)?;
        check_price(price)?;

        let class = self.class(plant)?;
        let place = self.free_place(number)?;
        require(class.holds(rank), Refusal::NotPermitted)?;
        require(self.contracts.len() < CONTRACTS, Refusal::Full)?;
        require(
            self.accounts[plant].has_room_for(energy),
            Refusal::SumPastLimit,
        )?;

        self.insert(
            place,
            Contract {
                number,
                plant: plant as u8,
                rank,
                energy,
                price,
            },
        );
        Ok(())
    }

    pub fn transfer(
        &mut self,
        new: u32,
        old: u32,
        receiver: u8,
        energy: u64,
        price: u32,
    ) -> Result<(), Refusal> {
        check_number(new)?;
        check_number(old)?;
        let receiver = plant_index(receiver)?;
        require(energy > 0, Refusal::PastLimit)?;
        check_energy(energy)?;
        check_price(price)?;

        let receiver_class = self.class(receiver)?;
        let source = self.find(old).map_err(|_| Refusal::NoContract)?;
        let place = self.free_place(new)?;
        let contract = &self.contracts[source];
        let giver = contract.plant as usize;
        let permitted = giver != receiver
            && self.class(giver)?.transfers()
            && receiver_class.transfers()
            && receiver_class.holds(contract.rank);
        require(permitted, Refusal::NotPermitted)?;
        require(energy <= contract.energy, Refusal::TooMuch)?;
        require(self.contracts.len() < CONTRACTS, Refusal::Full)?;
        require(
            self.accounts[receiver].has_room_for(energy),
            Refusal::SumPastLimit,
        )?;
        let fee = energy as i64 * 100 * (i64::from(contract.price) - i64::from(price));
        let giver_side = checked_side(self.accounts[giver].side + fee)?;
        let receiver_side = checked_side(self.accounts[receiver].side - fee)?;

        self.accounts[giver].side = giver_side;
        self.accounts[receiver].side = receiver_side;
        let contract = &mut self.contracts[source];
        contract.energy -= energy;
        let (rank, price) = (contract.rank, contract.price);
        self.accounts[giver].sums[rank as usize - 1] -= energy;
        self.insert(
            place,
            Contract {
                number: new,
                plant: receiver as u8,
                rank,
                energy,
                price,
            },
        );
        Ok(())
    }

    pub fn meter(&mut self, plant: u8, metered: u64, commissioning: u64) -> Result<(), Refusal> {
        let plant = plant_index(plant)?;
        check_energy(metered)?;
        check_energy(commissioning)?;

        self.class(plant)?;
        require(commissioning <= metered, Refusal::TooMuch)?;
        self.accounts[plant].reading = Some(Reading {
            metered,
            commissioning,
        });
        Ok(())
    }

    fn class(&self, plant: usize) -> Result<Class, Refusal> {
        let enrolment = self.accounts[plant].enrolment.ok_or(Refusal::NotEnrolled)?;
        Ok(enrolment.class)
    }

    /// Where the contract stands, or where it would.
    fn find(&self, number: u32) -> Result<usize, usize> {
        self.contracts
            .binary_search_by_key(&number, |contract| contract.number)
    }

    fn free_place(&self, number: u32) -> Result<usize, Refusal> {
        match self.find(number) {
            Ok(_) => Err(Refusal::AlreadyThere),
            Err(place) => Ok(place),
        }
    }

    fn insert(&mut self, place: usize, contract: Contract) {
        let account = &mut self.accounts[contract.plant as usize];
        account.sums[contract.rank as usize - 1] += contract.energy;
        self.contracts.insert(place, contract);
    }
}

fn require(condition: bool, refusal: Refusal) -> Result<(), Refusal> {
    if condition {
        Ok(())
    } else {
        Err(refusal)
    }
}

fn plant_index(plant: u8) -> Result<usize, Refusal> {
    let plant = usize::from(plant);
    require((1..=PLANTS).contains(&plant), Refusal::PastLimit)?;
    Ok(plant - 1)
}

fn check_number(number: u32) -> Result<(), Refusal> {
    require(number > 0, Refusal::PastLimit)
}

fn check_energy(energy: u64) -> Result<(), Refusal> {
    require(energy <= ENERGY_LIMIT, Refusal::PastLimit)
}

fn check_price(price: u32) -> Result<(), Refusal> {
    require(price <= PRICE_LIMIT, Refusal::PastLimit)
}

fn checked_side(side: i64) -> Result<i64, Refusal> {
    require(side.abs() <= SIDE_LIMIT, Refusal::SumPastLimit)?;
    Ok(side)
}
