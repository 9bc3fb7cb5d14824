//! What was compared of large books, at the places where a length or a count leaves its
//! bits, and of the frames that carry them.

mod checkpoints;
mod compared;
mod frames;
mod lengths;
mod records;
mod reports;
mod wakes;

use second::answer::Answer;

use super::{Made, Question, Rows};
use crate::draft::FULL_BOOK;
use compared::{Compared, Tally};
use frames::FrameCounts;
use lengths::LengthCounts;

pub struct LargeBookCounts {
    lengths: LengthCounts,
    tallies: Vec<Tally>,
    frames: FrameCounts,
}

impl Default for LargeBookCounts {
    fn default() -> LargeBookCounts {
        let tables = [
            &wakes::TABLES[..],
            &checkpoints::TABLES[..],
            &reports::TABLES[..],
            &records::TABLES[..],
        ];
        LargeBookCounts {
            lengths: LengthCounts::default(),
            tallies: tables.concat().into_iter().map(Tally::of).collect(),
            frames: FrameCounts::default(),
        }
    }
}

pub fn is_large(book: &[u8]) -> bool {
    book.len() > FULL_BOOK
}

impl LargeBookCounts {
    /// Counts a call, before what it made is the latest.
    pub fn count(&mut self, question: &Question, answer: &Answer, latest: Option<&Made>) {
        self.lengths.count(question, answer.head[0]);
        if is_large(question.book) {
            let compared = Compared::of(question, answer, latest);
            for tally in &mut self.tallies {
                tally.count(&compared);
            }
        }
    }

    /// Counts the frame of a call.
    pub fn count_frame(&mut self, frame: &[u8]) {
        self.frames.count(frame);
    }

    /// Counts bytes that ended the other program.
    pub fn count_stop(&mut self, bytes: &[u8]) {
        self.frames.count_stop(bytes);
    }

    pub fn table(&self) -> Vec<(&'static str, Rows)> {
        let mut table = self.lengths.table();
        table.extend(self.tallies.iter().map(Tally::rows));
        table.extend(self.frames.table());
        table
    }
}

#[cfg(test)]
mod tests {
    use super::*;
    use crate::draft::{put, LINE};
    use crate::job::CHECKPOINT;
    use crate::large_books::hours_up_to;
    use second::answer::{answer, Call, Frame};
    use second::replay::encode;

    /// Of a book, of which the trailer and those of 16 units are no records.
    const LINES: usize = 65_600;
    const RECORDS: u32 = LINES as u32 - 17;

    /// Subjects and names of what is counted of a call.
    fn counted(call: Call, argument: u32, book: &[u8], checkpoint: &[u8]) -> Vec<String> {
        let frame = Frame {
            call,
            argument,
            book,
            checkpoint,
            output: &[0; CHECKPOINT],
        };
        let mut counts = LargeBookCounts::default();
        counts.count(&Question::of(&encode(&frame)), &answer(&frame), None);
        let rows = counts.table().into_iter().flat_map(|(subject, rows)| {
            let found = rows.into_iter().filter(|(_, count)| *count > 0);
            found.map(move |(name, _)| format!("{subject} {name}"))
        });
        rows.collect()
    }

    /// Of nothing but the place, in the book of hours.
    fn checkpoint_at(book: &[u8], place: u32) -> Vec<u8> {
        let mut checkpoint = vec![0; CHECKPOINT];
        put(&mut checkpoint, 0, &place.to_le_bytes());
        put(&mut checkpoint, 80, &(book.len() as u32).to_le_bytes());
        put(&mut checkpoint, 84, &2016u16.to_le_bytes());
        checkpoint
    }

    #[test]
    fn lengths_are_told_by_call_and_number() {
        let book = hours_up_to(FULL_BOOK + LINE).bytes();
        let fresh = counted(Call::Fresh, 0, &book, &[]);
        assert_eq!(fresh, ["book of 65,568 bytes, fresh"]);
        let refused = counted(Call::Record, 0, &book[1..], &[]);
        assert_eq!(refused, ["number 20 for 65,567 bytes, one record"]);
        let full = counted(Call::Fresh, 0, &hours_up_to(FULL_BOOK).bytes(), &[]);
        assert_eq!(full, ["book of 65,536 bytes, fresh"]);
    }

    #[test]
    fn wakes_are_told_by_their_places() {
        let book = hours_up_to(LINE * LINES).bytes();
        let wake = counted(Call::Wake, 2, &book, &checkpoint_at(&book, 65_535));
        let names = [
            "wake over a large book from record 65,535",
            "wake over a large book to record 65,537",
            "wake over a large book, over record 65,536",
            "checkpoint of a large book, 65,535 done",
        ];
        assert_eq!(wake, names);
        let last = counted(Call::Wake, 0, &book, &checkpoint_at(&book, RECORDS));
        let names = [
            "wake over a large book from the end",
            "wake over a large book, budget 0, past record 65,536",
        ];
        assert_eq!(last, names);
    }

    #[test]
    fn unsound_checkpoints_are_told_where_one_thing_is_wrong() {
        let book = hours_up_to(LINE * LINES).bytes();
        let told = |place: usize, value: u32| {
            let mut checkpoint = checkpoint_at(&book, RECORDS);
            put(&mut checkpoint, place, &value.to_le_bytes());
            counted(Call::Report, 0, &book, &checkpoint)
        };
        let subject = "number 31 in a large book for";
        let past = told(0, RECORDS + 1);
        assert_eq!(past, [format!("{subject} one more done than n")]);
        let of_another = told(80, (LINE * LINES + LINE) as u32);
        assert_eq!(
            of_another,
            [format!("{subject} the length of another book")]
        );
        // One set aside has a reason.
        assert_eq!(told(4, RECORDS + 1), [""; 0]);
    }

    #[test]
    fn repeats_are_told_by_their_places() {
        let mut draft = hours_up_to(LINE * LINES);
        draft.records[65_536] = draft.records[65_535];
        draft.records[65_537] = draft.records[1];
        let book = draft.bytes();
        let near = counted(Call::Record, 65_536, &book, &[]);
        let names = [
            "large book, record 65,536",
            "large book, hour repeated, 65,536 as 65,535",
        ];
        assert_eq!(near, names);
        let far = counted(Call::Record, 65_537, &book, &[]);
        let names = [
            "large book, record 65,537",
            "large book past record 65,536, reason 8",
            "large book, hour repeated, 65,537 as 1",
        ];
        assert_eq!(far, names);
    }
}
