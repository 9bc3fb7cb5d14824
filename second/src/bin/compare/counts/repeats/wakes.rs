//! What was compared of records repeated in wakes.

use second::answer::{Answer, Call};
use second::book::Book;
use second::bytes::u32_at;

use super::super::{Made, Question, Rows};
use super::wake::Wake;
use crate::draft::LAST_MONTH;
use crate::repeats::Kind;

const MANY_HOURS: usize = 1_900;
/// Each month of 64 units.
const MOST_ANODES: usize = 64 * LAST_MONTH as usize;

type Row = (&'static str, fn(&Wake) -> bool);

const WAKES: [Row; 18] = [
    ("within a wake", |wake| !wake.within.is_empty()),
    ("across wakes", |wake| !wake.across.is_empty()),
    ("within a wake and across wakes", |wake| {
        !wake.within.is_empty() && !wake.across.is_empty()
    }),
    ("at the first record of a wake", |wake| wake.begins_with_one),
    ("across wakes, budget 1", |wake| wake.is_across_by(1)),
    ("across wakes, budget 2", |wake| wake.is_across_by(2)),
    ("across wakes, budget 3", |wake| wake.is_across_by(3)),
    ("across wakes, budget 4", |wake| wake.is_across_by(4)),
    ("across wakes, budget 10", |wake| wake.is_across_by(10)),
    ("across wakes, budget 100", |wake| wake.is_across_by(100)),
    ("across wakes, the greatest budget", |wake| {
        wake.is_across_by(u32::MAX)
    }),
    ("across wakes, from an older checkpoint", |wake| {
        !wake.across.is_empty() && wake.is_from_an_older_one()
    }),
    ("across wakes, from one that no wake made", |wake| {
        !wake.across.is_empty() && wake.is_from_nowhere()
    }),
    ("after the book was edited, not before", |wake| {
        wake.is_edited_so_that([false, true])
    }),
    ("before the book was edited, not after", |wake| {
        wake.is_edited_so_that([true, false])
    }),
    ("of 64 units in one wake", |wake| {
        wake.repeated_units() == 64
    }),
    ("of one alone in a full book", |wake| {
        wake.is_alone_and_of_more_than(MANY_HOURS) && wake.repeats() + 1 == wake.moved
    }),
    ("none, as many as there can be", |wake| {
        let many = match wake.kind {
            Kind::Hours => MANY_HOURS,
            Kind::Anodes => MOST_ANODES - 1,
        };
        wake.is_alone_and_of_more_than(many) && wake.repeats() == 0
    }),
];

pub struct WakeCounts {
    kind: Kind,
    wakes: [u64; WAKES.len()],
}

impl WakeCounts {
    pub fn new(kind: Kind) -> WakeCounts {
        WakeCounts {
            kind,
            wakes: [0; WAKES.len()],
        }
    }

    /// Counts a call that is a wake, before what it made is the latest.
    pub fn count(&mut self, question: &Question, answer: &Answer, latest: Option<&Made>) {
        if question.call == Call::Wake as u8 && answer.head[0] == 0 {
            self.count_wake(question, answer, latest);
        }
    }

    fn count_wake(&mut self, question: &Question, answer: &Answer, latest: Option<&Made>) {
        let moved = u32_at(&answer.head, 4) as usize;
        let has_more_aside = answer.output[4..8] != question.checkpoint[4..8];
        let is_edited = latest.is_some_and(|made| made.book != question.book);
        // Nothing is to be seen in most wakes.
        if !has_more_aside && !is_edited && moved < MOST_ANODES {
            return;
        }
        let book = Book::read(question.book).expect("the wake was made");
        if !book.records().any(|line| line[0] == self.kind.byte_0()) {
            return;
        }
        let wake = Wake::of(self.kind, question, latest, &book, moved);
        for (count, (_, is_so)) in self.wakes.iter_mut().zip(WAKES) {
            *count += u64::from(is_so(&wake));
        }
    }

    pub fn rows(&self) -> (&'static str, Rows) {
        let subject = match self.kind {
            Kind::Hours => "repeats",
            Kind::Anodes => "repeated anodes",
        };
        let names = WAKES.iter().map(|(name, _)| name.to_string());
        (subject, names.zip(self.wakes).collect())
    }
}

#[cfg(test)]
mod tests {
    use super::*;
    use crate::repeats;
    use second::answer::{answer, Frame};

    const KEYS: [repeats::Key; 5] = [(1, 1), (1, 2), (1, 1), (1, 2), (1, 2)];

    fn book(keys: &[repeats::Key]) -> Vec<u8> {
        repeats::book(
            &repeats::units_of(&KEYS),
            &repeats::judged(Kind::Hours, keys),
        )
    }

    /// The names of what is counted in a wake of this budget after one of another.
    fn counted(first_book: &[u8], book: &[u8], budgets: [u32; 2]) -> Vec<&'static str> {
        let call = |call, argument, book, checkpoint: &[u8]| {
            answer(&Frame {
                call,
                argument,
                book,
                checkpoint,
                output: &[0; 96],
            })
        };
        let start = call(Call::Fresh, 0, first_book, &[]).output;
        let middle = call(Call::Wake, budgets[0], first_book, &start).output;
        let last = call(Call::Wake, budgets[1], book, &middle);
        let made = Made {
            book: first_book.to_vec(),
            checkpoint: middle.clone(),
        };
        let question = Question {
            call: Call::Wake as u8,
            argument: budgets[1],
            book,
            checkpoint: &middle,
        };
        let mut counts = WakeCounts::new(Kind::Hours);
        counts.count(&question, &last, Some(&made));
        let names = WAKES.iter().map(|(name, _)| *name).zip(counts.wakes);
        let counted = names.filter(|(_, count)| *count > 0);
        counted.map(|(name, _)| name).collect()
    }

    #[test]
    fn repeats_lie_within_a_wake_or_across() {
        let book = book(&KEYS);
        let counted = |budgets| counted(&book, &book, budgets);
        assert_eq!(counted([0, 2]), [""; 0]);
        assert_eq!(counted([0, u32::MAX]), ["within a wake"]);
        assert_eq!(counted([1, 2]), ["across wakes", "across wakes, budget 2"]);
        assert_eq!(
            counted([2, 1]),
            [
                "across wakes",
                "at the first record of a wake",
                "across wakes, budget 1"
            ]
        );
        assert_eq!(
            counted([3, 2]),
            [
                "within a wake",
                "across wakes",
                "within a wake and across wakes",
                "at the first record of a wake",
                "across wakes, budget 2"
            ]
        );
    }

    #[test]
    fn an_edit_makes_and_unmakes_a_repeat() {
        let once = book(&[(1, 3), (1, 2), (1, 1)]);
        let twice = book(&[(1, 1), (1, 2), (1, 1)]);
        let made = counted(&once, &twice, [2, 1]);
        assert!(made.contains(&"after the book was edited, not before"));
        let unmade = counted(&twice, &once, [2, 1]);
        assert_eq!(unmade, ["before the book was edited, not after"]);
    }
}
