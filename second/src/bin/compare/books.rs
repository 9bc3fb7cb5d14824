//! Group 2: books at every edge that the requirements draw, and random ones.

pub mod analysed_gas;
pub mod anodes;
mod decisions;
mod every_call;
mod limits;
mod low_heat;
mod methods;
mod moisture;
mod part_of_total;
mod readings;
pub mod repeats;
mod sizes;
mod warming;

use crate::exchange::{Exchange, Outcome};
use crate::random::Random;
use crate::random_books;

pub fn run(exchange: &mut Exchange, rng: &mut Random) -> Outcome<()> {
    limits::run(exchange, rng)?;
    methods::run(exchange, rng)?;
    repeats::run(exchange, rng)?;
    low_heat::run(exchange, rng)?;
    moisture::run(exchange, rng)?;
    anodes::run(exchange, rng)?;
    analysed_gas::run(exchange, rng)?;
    decisions::run(exchange, rng)?;
    warming::run(exchange, rng)?;
    readings::run(exchange, rng)?;
    sizes::run(exchange, rng)?;
    repeats::full_books(exchange, rng)?;
    random_books::run(exchange, rng)
}
