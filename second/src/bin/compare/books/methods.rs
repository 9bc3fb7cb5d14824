//! Every choice that "Choosing the method" tells apart, in one book.

use crate::draft::{dry_unit, unit, Burnt, Draft, FuelLine, Line, FIRST_SET};
use crate::exchange::{Exchange, Outcome};
use crate::job;
use crate::random::Random;

pub fn run(exchange: &mut Exchange, rng: &mut Random) -> Outcome<()> {
    exchange.case("every choice of method");
    let book = choices();
    job::everything(exchange, rng, &book.bytes(), book.records.len())
}

/// Without a monitor, with a wet or a dry one, rating at and above 250.0
/// MMBtu/h, each class, default heat or none, heat measured or not, carbon
/// measured or not.
fn choices() -> Draft {
    let kinds_and_classes = [(1, 0), (3, 1), (2, 2), (1, 3)];
    let mut fuels = Vec::new();
    for (kind, class) in kinds_and_classes {
        for heat in [0, 35_000] {
            let number = 1 + fuels.len() as u16;
            let fuel = FuelLine {
                number,
                kind,
                class,
                heat,
                co2: 60_000,
                ch4: 700,
                n2o: 80,
                mvc: 0,
            };
            fuels.push(fuel.line());
        }
    }
    let units = units();
    let mut records = Vec::new();
    for unit in 1..=units.len() as u16 {
        for fuel in 1..=fuels.len() as u16 {
            records.extend(flagged(unit, fuel).map(|record| record.line()));
        }
    }
    Draft {
        records,
        units: units.to_vec(),
        fuels,
        year: 2011,
        warming_set: FIRST_SET,
    }
}

fn units() -> [Line; 6] {
    [
        unit(1, false, 2_500),
        unit(2, false, 2_501),
        unit(3, true, 2_500),
        unit(4, true, 2_501),
        dry_unit(5, 2_500),
        dry_unit(6, 2_501),
    ]
}

fn flagged(unit: u16, fuel: u16) -> [Burnt; 4] {
    let measured = [
        (None, None),
        (Some(36_000), None),
        (None, Some(700_000)),
        (Some(36_000), Some(700_000)),
    ];
    measured.map(|(heat, carbon)| Burnt {
        unit,
        fuel,
        month: 7,
        amount: 1_234_567,
        heat,
        heat_is_low: false,
        carbon,
    })
}
