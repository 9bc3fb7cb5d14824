//! Ledgers at the largest that the longest book can reach, by its records and by a
//! checkpoint that no wake made, and the figures that come of them.

use super::YEAR;
use crate::draft::{
    put, unit, Burnt, Draft, FuelLine, Line, FIRST_SET, LINE, LONGEST_BOOK, MOST_AMOUNT, MOST_HEAT,
    SETS,
};
use crate::exchange::{Exchange, Outcome};
use crate::expectation::{self, Expectation, Field};
use crate::histories::made_up::{LEDGERS, NG_PER_TONNE, TONNES_PER_RECORD};
use crate::job::{self, CHECKPOINT};
use crate::random::Random;

const MOST_FACTOR: u32 = 200_000;
const FOSSIL: u16 = 1;
const BIOMASS: u16 = 2;

/// Each record at the greatest amount, heat and factors: 4,000,000 t of CO2, 4,000 t of
/// CH4 and as much N2O.
const CO2_KG: u64 = 4_000_000_000;
const OTHER_KG: u64 = 4_000_000;

/// What CH4 and N2O count for under each set.
const WARMING: [[u64; 2]; 2] = [[21, 310], [25, 298]];

/// The fuel of the record at a place.
type Filling = fn(usize) -> u16;

const FILLINGS: [(&str, Filling); 3] = [
    ("fossil", |_| FOSSIL),
    ("biomass", |_| BIOMASS),
    ("fossil and biomass by turns", |place| match place % 2 {
        0 => FOSSIL,
        _ => BIOMASS,
    }),
];

pub fn run(exchange: &mut Exchange, rng: &mut Random) -> Outcome<()> {
    for (name, fuel) in FILLINGS {
        exchange.case(format!("the longest book of the largest records, {name}"));
        let draft = largest(fuel);
        for set in SETS {
            let book = draft.under(set);
            job::whole(exchange, rng, &book, told(&draft, set))?;
        }
        job::in_wakes(exchange, rng, &draft.bytes())?;
    }
    made_up(exchange)
}

fn largest(fuel: Filling) -> Draft {
    let line = |number, class| {
        let fuel = FuelLine {
            number,
            kind: 1,
            class,
            heat: 0,
            co2: MOST_FACTOR,
            ch4: MOST_FACTOR,
            n2o: MOST_FACTOR,
            mvc: 0,
        };
        fuel.line()
    };
    let mut draft = Draft {
        records: Vec::new(),
        units: vec![unit(1, false, 2_500)],
        fuels: vec![line(FOSSIL, 0), line(BIOMASS, 3)],
        year: YEAR,
        warming_set: FIRST_SET,
    };
    let record = |place| burnt(fuel(place));
    draft.records = (0..draft.room(LONGEST_BOOK)).map(record).collect();
    draft
}

fn burnt(fuel: u16) -> Line {
    let record = Burnt {
        unit: 1,
        fuel,
        month: 1,
        amount: MOST_AMOUNT,
        heat: Some(MOST_HEAT),
        heat_is_low: false,
        carbon: None,
    };
    record.line()
}

fn told(draft: &Draft, set: u8) -> Vec<Expectation> {
    let count = draft.records.len() as u64;
    let is_biomass = |line: &&Line| **line == burnt(BIOMASS);
    let biomass = draft.records.iter().filter(is_biomass).count() as u64;
    let [fossil, biomass] = [count - biomass, biomass].map(|records| records * CO2_KG);
    let other = count * OTHER_KG;
    let [ch4, n2o] = WARMING[usize::from(set)];
    let co2e = fossil + biomass + ch4 * other + n2o * other;
    expectation::report([fossil, biomass, other, other, co2e], true)
}

/// A book of nothing but records has the greatest n. All of its records are said to be
/// done, with as many tonnes in each ledger as are sound and a nanogram less than
/// another; one more is not.
fn made_up(exchange: &mut Exchange) -> Outcome<()> {
    exchange.case("the longest book, ledgers as large as is sound");
    let draft = Draft {
        records: vec![[0; LINE]; LONGEST_BOOK / LINE - 1],
        units: Vec::new(),
        fuels: Vec::new(),
        year: YEAR,
        warming_set: FIRST_SET,
    };
    let tonnes = TONNES_PER_RECORD * draft.records.len() as u64;
    for set in SETS {
        let book = draft.under(set);
        let checkpoint = all_done(&draft, tonnes);
        let kg = 1_000 * (tonnes + 1);
        let co2e = kg * (2 + WARMING[usize::from(set)].iter().sum::<u64>());
        let printed = expectation::report([kg, kg, kg, kg, co2e], true);
        exchange.hold(&job::report_frame(&book, &checkpoint, &[]), printed)?;
        for ledger in LEDGERS {
            let mut checkpoint = checkpoint.clone();
            put(&mut checkpoint, ledger, &(tonnes + 1).to_le_bytes());
            let frame = job::report_frame(&book, &checkpoint, &[]);
            exchange.hold(&frame, vec![Field::Number.is(31)])?;
        }
    }
    Ok(())
}

fn all_done(draft: &Draft, tonnes: u64) -> Vec<u8> {
    let done = draft.records.len() as u32;
    let rest = NG_PER_TONNE - 1;
    let mut checkpoint = vec![0; CHECKPOINT];
    put(&mut checkpoint, 0, &done.to_le_bytes());
    for ledger in LEDGERS {
        put(&mut checkpoint, ledger, &tonnes.to_le_bytes());
        put(&mut checkpoint, ledger + 8, &rest.to_le_bytes());
    }
    put(&mut checkpoint, 80, &(LONGEST_BOOK as u32).to_le_bytes());
    put(&mut checkpoint, 84, &draft.year.to_le_bytes());
    checkpoint
}
