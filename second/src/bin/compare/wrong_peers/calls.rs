//! Programs that judge records rightly and make wrong calls of them.

use second::answer::{answer, Answer, Call, Frame};
use second::book::Book;
use second::checkpoint::Checkpoint;
use second::ledger::{Ledgers, NG_PER_TONNE};
use second::report::{co2e, kilograms, Report};
use second::warming::Warming;

use crate::draft::{put, LINE};
use crate::job::CHECKPOINT;

/// Reports made from the right ledgers in a wrong way.
pub fn reporting(frame: &Frame, wrong: impl Fn(&Ledgers, Warming) -> Report) -> Answer {
    let mut answered = answer(frame);
    if frame.call == Call::Report && answered.head[0] == 0 {
        let book = Book::read(frame.book).expect("the report was given");
        let checkpoint = Checkpoint::read(frame.checkpoint, &book).expect("the report was given");
        let report = wrong(&checkpoint.ledgers, book.warming);
        for (place, figure) in (8..).step_by(8).zip(report.figures) {
            put(&mut answered.head, place, &figure.to_le_bytes());
        }
        answered.head[48] = u8::from(report.must_report);
    }
    answered
}

pub fn compares_rounded_co2e(frame: &Frame) -> Answer {
    reporting(frame, |ledgers, warming| {
        let right = Report::of(ledgers, warming);
        let rounded = u128::from(kilograms(co2e(ledgers, warming))) * NG_PER_TONNE / 1_000;
        let subtracted = if rounded < 25_000 * NG_PER_TONNE {
            ledgers.biomass.min(15_000 * NG_PER_TONNE)
        } else {
            0
        };
        Report {
            must_report: rounded - subtracted.min(rounded) >= 10_000 * NG_PER_TONNE,
            ..right
        }
    })
}

/// Of any T, without the limit of 15,000 t. With either the condition or the
/// limit alone the decision would still be right.
pub fn subtracts_all_biomass_always(frame: &Frame) -> Answer {
    reporting(frame, |ledgers, warming| Report {
        must_report: co2e(ledgers, warming) - ledgers.biomass >= 10_000 * NG_PER_TONNE,
        ..Report::of(ledgers, warming)
    })
}

pub fn clears_the_output_when_it_refuses(frame: &Frame) -> Answer {
    let mut answered = answer(frame);
    if answered.head[0] != 0 {
        answered.output.fill(0);
    }
    answered
}

pub fn wakes_to_the_end_whatever_the_budget(frame: &Frame) -> Answer {
    let mut greedy = *frame;
    if frame.call == Call::Wake && frame.argument > 0 {
        greedy.argument = u32::MAX;
    }
    answer(&greedy)
}

/// That is, believes a checkpoint whose reason is 9.
pub fn knows_nine_reasons(frame: &Frame) -> Answer {
    let mut checkpoint = frame.checkpoint.to_vec();
    if checkpoint.get(12) == Some(&9) {
        checkpoint[12] = 8;
    }
    answer(&Frame {
        checkpoint: &checkpoint,
        ..*frame
    })
}

pub fn overlooks_the_last_byte_of_lines(frame: &Frame) -> Answer {
    let mut book = frame.book.to_vec();
    book.chunks_mut(LINE).for_each(|line| {
        if let Some(last) = line.get_mut(LINE - 1) {
            *last = 0;
        }
    });
    answer(&Frame {
        book: &book,
        ..*frame
    })
}

pub fn minds_the_output_buffer_first(frame: &Frame) -> Answer {
    let mut answered = answer(frame);
    let is_late = [30, 31].contains(&answered.head[0]) && frame.call == Call::Wake;
    if is_late && frame.output.len() != CHECKPOINT {
        answered.head[0] = 32;
    }
    answered
}

pub fn tells_the_records_done_as_left(frame: &Frame) -> Answer {
    let mut answered = answer(frame);
    if frame.call == Call::Left && answered.head[0] == 0 {
        answered.head[4..8].copy_from_slice(&frame.checkpoint[..4]);
    }
    answered
}

/// That is, tells 31 before 30.
pub fn asks_if_a_checkpoint_is_sound_before_its_length(frame: &Frame) -> Answer {
    let mut answered = answer(frame);
    if frame.call == Call::Left && answered.head[0] == 30 {
        answered.head[0] = 31;
    }
    answered
}
