//! What was compared of hours and anodes that stand in an earlier record.

mod anodes;
pub mod asked;
mod hours;
mod reasons;
mod records;
mod wake;
mod wakes;

use second::answer::Answer;

use super::large_books::is_large;
use super::{Made, Question, Rows};
use crate::repeats::Kind;
use asked::Asked;
use reasons::ReasonCounts;
use records::RecordCounts;
use wakes::WakeCounts;

pub struct RepeatCounts {
    hours: RecordCounts,
    anodes: RecordCounts,
    wakes: [WakeCounts; 2],
    reasons: ReasonCounts,
}

impl Default for RepeatCounts {
    fn default() -> RepeatCounts {
        RepeatCounts {
            hours: RecordCounts::new(&hours::TABLES),
            anodes: RecordCounts::new(&anodes::TABLES),
            wakes: [Kind::Hours, Kind::Anodes].map(WakeCounts::new),
            reasons: ReasonCounts::default(),
        }
    }
}

/// Of large books others are counted, for to look back from each record, and again for each
/// row, takes too long there.
impl RepeatCounts {
    pub fn count_record(&mut self, kind: Kind, asked: &Asked) {
        if is_large(asked.book) {
            return;
        }
        match kind {
            Kind::Hours => self.hours.count(asked),
            Kind::Anodes => self.anodes.count(asked),
        }
    }

    /// Counts a call, before what it made is the latest.
    pub fn count(&mut self, question: &Question, answer: &Answer, latest: Option<&Made>) {
        if is_large(question.book) {
            return;
        }
        for wakes in &mut self.wakes {
            wakes.count(question, answer, latest);
        }
        self.reasons.count(question, answer);
    }

    pub fn table(&self) -> Vec<(&'static str, Rows)> {
        let mut table = self.hours.table();
        table.extend(self.anodes.table());
        table.extend(self.wakes.iter().map(WakeCounts::rows));
        table.push(("checkpoint that names", self.reasons.rows()));
        table
    }
}
