//! Programs that are wrong about gas analysed by molecular weight.

mod answers;
mod fuel_lines;
mod masses;
mod ranges;
mod reasons;
mod rounding;

pub use answers::*;
pub use fuel_lines::*;
pub use masses::*;
pub use ranges::*;
pub use reasons::*;
pub use rounding::*;

use second::answer::{Answer, Frame};
use second::book::Book;
use second::bytes::{u16_at, u32_at};
use second::lines::Fuel;
use second::record::{judge, Addition, Judged};

use super::records::judging;
use crate::draft::{ANALYSED_GAS, CARBON_PLACE, LINE, WEIGHT_PLACE};

/// Records of analysed gas judged wrongly.
fn of_gas(frame: &Frame, wrong: impl Fn(&Book, &[u8]) -> Judged) -> Answer {
    judging(frame, |book, line| match line[0] {
        ANALYSED_GAS => wrong(book, line),
        _ => judge(book, line),
    })
}

/// What they become is judged in their stead.
fn edited(frame: &Frame, wrong: impl Fn(&mut [u8])) -> Answer {
    of_gas(frame, |book, line| {
        let mut line = line.to_vec();
        wrong(&mut line);
        judge(book, &line)
    })
}

/// Those that count, told wrongly.
fn told(frame: &Frame, wrong: impl Fn(Addition) -> Addition) -> Answer {
    of_gas(frame, |book, line| judge(book, line).map(&wrong))
}

fn fuel_of<'a>(book: &'a Book, line: &[u8]) -> Option<&'a Fuel> {
    book.fuel(u16_at(line, 4))
}

/// What the CO2 is made of.
struct Factors {
    amount: u128,
    carbon: u128,
    weight: u128,
    mvc: u128,
}

impl Factors {
    fn of(line: &[u8], mvc: u32) -> Factors {
        Factors {
            amount: u128::from(u32_at(line, 8)),
            carbon: u128::from(u32_at(line, CARBON_PLACE)),
            weight: u128::from(u32_at(line, WEIGHT_PLACE)),
            mvc: u128::from(mvc),
        }
    }

    fn product(&self) -> u128 {
        self.amount * self.carbon * self.weight * 3_664
    }
}

/// Those under method 3, with another CO2.
fn with_ug(frame: &Frame, wrong: impl Fn(&Factors) -> u128) -> Answer {
    of_gas(frame, |book, line| {
        let judged = judge(book, line)?;
        let fuel = fuel_of(book, line).expect("the record counts");
        Ok(match judged.method {
            3 => Addition {
                co2_ug: wrong(&Factors::of(line, fuel.mvc)) as u64,
                ..judged
            },
            _ => judged,
        })
    })
}

/// Half to even.
fn nearest(number: u128, divisor: u128) -> u128 {
    let (whole, rest) = (number / divisor, number % divisor);
    whole + u128::from(2 * rest > divisor || (2 * rest == divisor && whole % 2 == 1))
}

/// The book with other fuel lines, if there are any.
fn with_fuels(book: &[u8], other: impl Fn(&mut [u8])) -> Vec<u8> {
    let mut changed = book.to_vec();
    let trailer = book.len().saturating_sub(LINE);
    if book.len() >= LINE {
        let start = u32_at(&book[trailer..], 12) as usize;
        let lines = changed.get_mut(start..trailer);
        let fuels = lines
            .into_iter()
            .flat_map(|lines| lines.chunks_exact_mut(LINE));
        fuels.for_each(other);
    }
    changed
}
