//! Programs that judge records wrongly.

use std::ops::Range;

use second::answer::{answer, Answer, Call, Frame};
use second::book::Book;
use second::bytes::{u16_at, u32_at};
use second::checkpoint::Checkpoint;
use second::earlier_records::EarlierRecords;
use second::record::{judge, Addition, Co2Ledger, Judged, Reason};

use crate::draft::{put, HOUR};

/// A job done with a wrong judge of single records; which hours are repeated it
/// sees rightly.
pub(super) fn judging(frame: &Frame, wrong: impl Fn(&Book, &[u8]) -> Judged) -> Answer {
    judging_by(frame, &wrong)
}

/// Built once for all wrong judges, for there are many.
fn judging_by(frame: &Frame, wrong: &dyn Fn(&Book, &[u8]) -> Judged) -> Answer {
    judging_ranges(frame, |book, range| {
        let mut earlier = EarlierRecords::before(book, range.start as u32);
        let lines = book.records().take(range.end).skip(range.start);
        let judged = lines.map(|line| {
            let is_repeated = earlier.go_through(line);
            wrong(book, line).and_then(|addition| match is_repeated {
                true => Err(Reason::Repeated),
                false => Ok(addition),
            })
        });
        judged.collect()
    })
}

/// A job done with a wrong judge of the records whose indices are in a range:
/// call 4 and wakes.
pub(super) fn judging_ranges(
    frame: &Frame,
    wrong: impl Fn(&Book, Range<usize>) -> Vec<Judged>,
) -> Answer {
    judging_ranges_by(frame, &wrong)
}

fn judging_ranges_by(frame: &Frame, wrong: &dyn Fn(&Book, Range<usize>) -> Vec<Judged>) -> Answer {
    let mut answered = answer(frame);
    let Ok(book) = Book::read(frame.book) else {
        return answered;
    };
    match frame.call {
        Call::Record if frame.argument < book.record_count() => {
            let index = frame.argument as usize;
            let judged = wrong(&book, index..index + 1);
            put_judged(&mut answered, judged[0]);
        }
        Call::Wake if answered.head[0] == 0 => {
            let mut checkpoint =
                Checkpoint::read(frame.checkpoint, &book).expect("the wake was accepted");
            let moved = frame.argument.min(book.record_count() - checkpoint.done);
            let range = checkpoint.done as usize..(checkpoint.done + moved) as usize;
            for judged in wrong(&book, range) {
                checkpoint.take(judged);
            }
            answered.output = checkpoint.bytes().to_vec();
        }
        _ => {}
    }
    answered
}

fn put_judged(answered: &mut Answer, judged: Judged) {
    answered.head = [0; 64];
    match judged {
        Err(reason) => answered.head[1] = reason as u8,
        Ok(addition) => {
            answered.head[2] = addition.method;
            answered.head[3] = addition.ledger as u8;
            put(&mut answered.head, 8, &addition.co2_ug.to_le_bytes());
            put(&mut answered.head, 16, &addition.ch4_ng.to_le_bytes());
            put(&mut answered.head, 24, &addition.n2o_ng.to_le_bytes());
        }
    }
}

pub fn rounds_each_record_to_kilograms(frame: &Frame) -> Answer {
    judging(frame, |book, line| {
        judge(book, line).map(|addition| Addition {
            co2_ug: (addition.co2_ug + 500_000_000) / 1_000_000_000 * 1_000_000_000,
            ..addition
        })
    })
}

pub fn takes_minus_zero_for_less_than_zero(frame: &Frame) -> Answer {
    judging(frame, |book, line| {
        let minus_zero = |place: usize| line[place..place + 4] == [0, 0, 0, 0x80];
        match judge(book, line) {
            Ok(_) if line[0] == HOUR && (minus_zero(8) || minus_zero(12)) => {
                Err(Reason::OutOfRange)
            }
            judged => judged,
        }
    })
}

/// Of a large unit whose measured heat is not permitted.
pub fn falls_back_to_method_1(frame: &Frame) -> Answer {
    judging(frame, |book, line| {
        let judged = judge(book, line);
        let fuel = book.fuel(u16_at(line, 4));
        match (judged, fuel) {
            (Err(Reason::NoPermittedMethod), Some(fuel)) if fuel.default_heat > 0 => {
                let amount = u32_at(line, 8);
                let energy = u64::from(amount) * u64::from(fuel.default_heat);
                Ok(Addition {
                    method: 1,
                    ledger: Co2Ledger::Fossil,
                    co2_ug: energy * u64::from(fuel.co2),
                    ch4_ng: energy * u64::from(fuel.ch4),
                    n2o_ng: energy * u64::from(fuel.n2o),
                })
            }
            _ => judged,
        }
    })
}

pub fn counts_fuel_co2_of_a_monitored_unit(frame: &Frame) -> Answer {
    judging(frame, |book, line| {
        let judged = judge(book, line)?;
        let fuel = book.fuel(u16_at(line, 4));
        match fuel {
            Some(fuel) if judged.method == 4 && fuel.n2o > 0 => Ok(Addition {
                ledger: Co2Ledger::Fossil,
                co2_ug: judged.n2o_ng / u64::from(fuel.n2o) * u64::from(fuel.co2),
                ..judged
            }),
            _ => Ok(judged),
        }
    })
}

/// Instead of 3.664.
pub fn turns_carbon_into_co2_by_44_over_12(frame: &Frame) -> Answer {
    judging(frame, |book, line| {
        let judged = judge(book, line)?;
        match judged.method {
            3 => Ok(Addition {
                co2_ug: judged.co2_ug / 3_664 * 11_000 / 3,
                ..judged
            }),
            _ => Ok(judged),
        }
    })
}
