//! One book after the other in every call, with checkpoints that were made
//! under the small book.

use second::answer::{Call, Frame};

use crate::exchange::{Exchange, Outcome};
use crate::expectation::Field;
use crate::job::{self, CHECKPOINT};
use crate::random::Random;
use crate::sample::small_book;

/// Of a job under the small book; every book of its length and year goes on
/// from them.
pub struct Checkpoints {
    start: Vec<u8>,
    end: Vec<u8>,
}

impl Checkpoints {
    pub fn of_small_book(exchange: &mut Exchange, rng: &mut Random) -> Outcome<Checkpoints> {
        let book = small_book().bytes();
        let junk = rng.junk(CHECKPOINT);
        let start = job::fresh(exchange, &book, &junk)?;
        let end = job::wake(exchange, &book, &start.output, u32::MAX, &junk)?;
        Ok(Checkpoints {
            start: start.output.clone(),
            end: end.output.clone(),
        })
    }

    /// Each call with this book, whose number must be `number`.
    pub fn every_call(
        &self,
        exchange: &mut Exchange,
        rng: &mut Random,
        book: &[u8],
        number: u64,
    ) -> Outcome<()> {
        let calls: [(Call, u32, &[u8]); 4] = [
            (Call::Fresh, 0, &[]),
            (Call::Wake, 1, &self.start),
            (Call::Report, 0, &self.end),
            (Call::Record, 1, &[]),
        ];
        for (call, argument, checkpoint) in calls {
            let frame = Frame {
                call,
                argument,
                book,
                checkpoint,
                output: &rng.junk(CHECKPOINT),
            };
            exchange.hold(&frame, vec![Field::Number.is(number)])?;
        }
        Ok(())
    }
}
