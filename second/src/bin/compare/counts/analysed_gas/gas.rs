//! A record of analysed gas with its unit and its fuel.

use second::book::Book;
use second::bytes::{u16_at, u32_at};
use second::lines::{Fuel, Monitor, Unit};
use second::measured_carbon::CarbonByMass;
use second::quotient::Quotient;
use second::record::judge;

use crate::counts::repeats::asked::{key, Asked};
use crate::draft::{
    put, Line, CARBON_PLACE, HEAT_IS_LOW, HEAT_MEASURED, LINE, MVC_PLACE, WEIGHT_PLACE,
};

pub struct Gas<'a> {
    pub asked: &'a Asked<'a>,
    book: Book<'a>,
    pub unit: Option<Unit>,
    pub fuel: Option<Fuel>,
}

impl<'a> Gas<'a> {
    pub fn of(asked: &'a Asked<'a>) -> Gas<'a> {
        let book = Book::read(asked.book).expect("the record was judged");
        Gas {
            asked,
            unit: book.unit(u16_at(asked.line(), 2)).copied(),
            fuel: book.fuel(u16_at(asked.line(), 4)).copied(),
            book,
        }
    }

    pub fn reason(&self) -> u8 {
        self.asked.reason
    }

    pub fn month(&self) -> u16 {
        u16_at(self.asked.line(), 6)
    }

    pub fn amount(&self) -> u32 {
        u32_at(self.asked.line(), 8)
    }

    pub fn heat(&self) -> u32 {
        u32_at(self.asked.line(), 12)
    }

    pub fn carbon(&self) -> u32 {
        u32_at(self.asked.line(), CARBON_PLACE)
    }

    pub fn weight(&self) -> u32 {
        u32_at(self.asked.line(), WEIGHT_PLACE)
    }

    pub fn has_high_heat(&self) -> bool {
        self.asked.line()[1] == HEAT_MEASURED
    }

    pub fn has_low_heat(&self) -> bool {
        self.asked.line()[1] == HEAT_MEASURED | HEAT_IS_LOW
    }

    pub fn is_on(&self, monitor: Monitor) -> bool {
        self.unit.is_some_and(|unit| unit.monitor == monitor)
    }

    pub fn is_monitored(&self) -> bool {
        self.is_on(Monitor::Wet) || self.is_on(Monitor::Dry)
    }

    pub fn is_of(&self, is_so: impl Fn(&Fuel) -> bool) -> bool {
        self.fuel.as_ref().is_some_and(is_so)
    }

    /// Of a record that counts, unless it gives none.
    pub fn co2_ug(&self) -> Option<Quotient> {
        let fuel = self.fuel.filter(|_| self.is_on(Monitor::None))?;
        let measured = CarbonByMass::read(self.asked.line());
        Some(measured.co2_ug(u64::from(self.amount()), fuel.mvc))
    }

    pub fn is_past_64_bits(&self) -> bool {
        let factors = [self.amount(), self.carbon(), self.weight(), 3_664];
        factors.map(u128::from).iter().product::<u128>() > u128::from(u64::MAX)
    }

    /// Whether a record before it is of this kind, with its unit and number.
    pub fn is_after(&self, kind: u8) -> bool {
        let is_it = |other: &[u8]| other[0] == kind && key(other) == key(self.asked.line());
        self.asked.earlier().any(is_it)
    }

    /// Whether it has this reason, and would count with other bytes.
    pub fn is_for(&self, reason: u8, mend: impl FnOnce(&mut [u8])) -> bool {
        let mut line = self.asked.line().to_vec();
        mend(&mut line);
        self.reason() == reason && judge(&self.book, &line).is_ok()
    }

    /// Whether it has this reason, and would count with another of these fields.
    pub fn is_for_field(&self, reason: u8, place: usize) -> bool {
        self.is_for(reason, |line| put(line, place, &1u32.to_le_bytes()))
    }

    /// Whether nothing but its fuel sets it aside: it counts in a book of its units and of
    /// a gas that has all it takes.
    pub fn is_for_its_fuel(&self, reason: u8) -> bool {
        self.reason() == reason && self.fuel.is_some_and(|fuel| self.counts_of(fuel.number))
    }

    fn counts_of(&self, number: u16) -> bool {
        let mut book = self.asked.book.to_vec();
        let trailer = book.len() - LINE;
        let start = u32_at(&book[trailer..], 12) as usize;
        let mut fuels = book[start..trailer].chunks_mut(LINE);
        if let Some(fuel) = fuels.find(|fuel| u16_at(fuel, 0) == number) {
            fuel.copy_from_slice(&good(number));
        }
        let book = Book::read(&book).expect("one good line more leaves it so");
        judge(&book, self.asked.line()).is_ok()
    }
}

/// Natural gas of a molar volume and a default heat.
fn good(number: u16) -> Line {
    let mut line = [0; LINE];
    put(&mut line, 0, &number.to_le_bytes());
    put(&mut line, 2, &[3, 1]);
    put(&mut line, 4, &1u32.to_le_bytes());
    put(&mut line, 8, &1u32.to_le_bytes());
    put(&mut line, MVC_PLACE, &24_000u32.to_le_bytes());
    line
}

#[cfg(test)]
mod tests {
    use super::*;
    use crate::sample::small_book_with_analysed_gas;

    /// Kind and class, molar volume and default heat of the fuel, and the weight of the
    /// record.
    #[test]
    fn a_fuel_is_told_where_it_alone_sets_gas_aside() {
        let fuels = [
            ([3, 0], 0, 1, 1, Some(4)),
            ([2, 0], 24_000, 1, 1, Some(4)),
            ([1, 3], 24_000, 1, 1, Some(4)),
            ([3, 1], 24_000, 0, 1, Some(7)),
            ([3, 0], 0, 1, 0, None), // The weight is wrong too.
            ([3, 1], 24_000, 1, 0, None),
            ([3, 1], 24_000, 1, 1, None),
        ];
        for (kind_and_class, mvc, heat, weight, told) in fuels {
            let mut draft = small_book_with_analysed_gas();
            let fuel = &mut draft.fuels[1];
            put(fuel, 2, &kind_and_class);
            put(fuel, 4, &u32::to_le_bytes(heat));
            put(fuel, MVC_PLACE, &u32::to_le_bytes(mvc));
            put(
                &mut draft.records[1],
                WEIGHT_PLACE,
                &u32::to_le_bytes(weight),
            );
            let book = draft.bytes();
            let asked = Asked {
                book: &book,
                index: 1,
                reason: second::answer::one_record(&book, 1)[1],
            };
            let gas = Gas::of(&asked);
            let reasons = [4, 7]
                .into_iter()
                .find(|&reason| gas.is_for_its_fuel(reason));
            assert_eq!(reasons, told, "{kind_and_class:?}, {mvc}, {heat}, {weight}");
        }
    }
}
