//! What was compared of the reasons that checkpoints name.

use second::answer::{Answer, Call};
use second::book::Book;
use second::bytes::u32_at;
use second::checkpoint::Checkpoint;

use super::super::{Question, Rows};

const REASON_PLACE: usize = 12;
const UNSOUND: u8 = 31;

/// Those that are accepted, and those that are turned away for it alone.
const NAMED: [&str; 11] = [
    "1",
    "2",
    "3",
    "4",
    "5",
    "6",
    "7",
    "8",
    "0, number 31",
    "9, number 31",
    "10 to 255, number 31",
];

#[derive(Default)]
pub struct ReasonCounts {
    named: [u64; NAMED.len()],
}

impl ReasonCounts {
    /// Counts a wake or a report from a checkpoint with one set aside.
    pub fn count(&mut self, question: &Question, answer: &Answer) {
        if let Some(place) = named(question, answer.head[0]) {
            self.named[place] += 1;
        }
    }

    pub fn rows(&self) -> Rows {
        NAMED
            .map(String::from)
            .into_iter()
            .zip(self.named)
            .collect()
    }
}

/// The place in `NAMED` of the reason in a checkpoint that has one set aside.
fn named(question: &Question, number: u8) -> Option<usize> {
    let is_of_checkpoint = [Call::Wake as u8, Call::Report as u8].contains(&question.call);
    let reason = *question.checkpoint.get(REASON_PLACE)?;
    if !is_of_checkpoint || u32_at(question.checkpoint, 4) == 0 {
        return None;
    }
    let place = match reason {
        1..=8 => usize::from(reason) - 1,
        0 => 8,
        9 => 9,
        _ => 10,
    };
    let is_sound = [0, 40, 41].contains(&number) && place < 8;
    let is_unsound_for_it = number == UNSOUND && place >= 8 && is_sound_otherwise(question);
    (is_sound || is_unsound_for_it).then_some(place)
}

fn is_sound_otherwise(question: &Question) -> bool {
    let book = Book::read(question.book).expect("the checkpoint was looked at");
    let mut mended = question.checkpoint.to_vec();
    mended[REASON_PLACE] = 1;
    Checkpoint::read(&mended, &book).is_ok()
}
