//! Totals at the thresholds of the decision, to a nanogram, with part of the fossil CO2
//! from one record of another kind.

use crate::draft::{Line, SETS};
use crate::exact::{self, Totals};
use crate::exchange::{Exchange, Outcome};
use crate::job;
use crate::random::Random;
use crate::warming::{Edge, EDGES};

/// A record that gives nothing but so much fossil CO2. Unit 1 has no monitor, unit 2 has
/// one.
pub struct Part {
    pub record: Line,
    pub ug: u64,
    /// The line of its fuel, whose number is above 8, if it names one.
    pub fuel: Option<Line>,
}

pub fn run(exchange: &mut Exchange, rng: &mut Random, name: &str, parts: &[Part]) -> Outcome<()> {
    let with_fossil = EDGES.into_iter().filter(|edge| edge.totals.fossil_ug > 0);
    for edge in with_fossil {
        exchange.case(format!("{name} in part of the total, {}", edge.name));
        for part in parts {
            at_edge(exchange, rng, &edge, part)?;
        }
    }
    Ok(())
}

/// The total with the part in it, where its fossil CO2 is as much.
fn at_edge(exchange: &mut Exchange, rng: &mut Random, edge: &Edge, part: &Part) -> Outcome<()> {
    let Some(fossil_ug) = edge.totals.fossil_ug.checked_sub(part.ug) else {
        return Ok(());
    };
    let mut draft = exact::book(Totals {
        fossil_ug,
        ..edge.totals
    });
    draft.fuels.extend(part.fuel);
    let place = rng.index(draft.records.len() + 1);
    draft.records.insert(place, part.record);
    for set in SETS {
        let book = draft.under(set);
        job::whole(exchange, rng, &book, edge.report(set))?;
        job::everything(exchange, rng, &book, draft.records.len())?;
    }
    Ok(())
}
