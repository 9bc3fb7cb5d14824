//! What was compared of checkpoints brought to large books: sound ones, and ones that are
//! unsound for one thing alone.

use second::answer::Call;
use second::book::Book;
use second::bytes::{u32_at, u64_at};
use second::checkpoint::Checkpoint;

use super::compared::{Compared, Row, Table, ASIDE, DONE, FIRST, PAST_16_BITS};
use crate::draft::put;
use crate::histories::made_up::{LEDGERS, TONNES_PER_RECORD};

const LENGTH: usize = 80;
const YEAR: usize = 84;

pub const TABLES: [Table; 2] = [
    Table {
        name: "checkpoint of a large book,",
        is_of: is_sound,
        rows: &SOUND,
    },
    Table {
        name: "number 31 in a large book for",
        is_of: |compared| compared.number == 31,
        rows: &UNSOUND,
    },
];

fn is_sound(compared: &Compared) -> bool {
    let is_asked = compared.is(Call::Wake) || compared.is(Call::Report);
    is_asked && [0, 40, 41].contains(&compared.number)
}

const SOUND: [Row; 12] = [
    ("65,535 done", |asked| asked.before(DONE) == 65_535),
    ("65,536 done", |asked| asked.before(DONE) == 65_536),
    ("65,537 done", |asked| asked.before(DONE) == 65_537),
    ("131,071 done", |asked| asked.before(DONE) == 131_071),
    ("65,535 set aside", |asked| asked.before(ASIDE) == 65_535),
    ("65,536 set aside", |asked| asked.before(ASIDE) == 65_536),
    ("65,537 set aside", |asked| asked.before(ASIDE) == 65_537),
    ("record 65,535 the first set aside", |asked| {
        asked.before(FIRST) == 65_535
    }),
    ("record 65,536 the first set aside", |asked| {
        asked.before(FIRST) == 65_536
    }),
    ("the last record the first set aside", |asked| {
        asked.before(FIRST) > 131_000 && asked.is_last(asked.before(FIRST))
    }),
    ("as many tonnes as are sound, 65,536 done", |asked| {
        asked.before(DONE) == PAST_16_BITS && is_as_large_as_sound(asked)
    }),
    ("as many tonnes as are sound, 131,071 done", |asked| {
        asked.before(DONE) == 131_071 && is_as_large_as_sound(asked)
    }),
];

const UNSOUND: [Row; 10] = [
    ("the length of another book", |asked| {
        is_for_length(asked, |_| true)
    }),
    ("a length that is the same in 16 bits", |asked| {
        is_for_length(asked, |by| by.is_multiple_of(PAST_16_BITS))
    }),
    ("the year of another book", |asked| {
        let book = asked.question.book;
        let year = &book[book.len() - 16..][..2];
        is_mended(asked, |checkpoint| put(checkpoint, YEAR, year))
    }),
    ("one more done than n", |asked| {
        is_one_past(asked, DONE, asked.records())
    }),
    ("65,536 more done than n", |asked| {
        asked.before(DONE) == asked.records() + PAST_16_BITS
    }),
    ("one more set aside than done", |asked| {
        is_one_past(asked, ASIDE, asked.before(DONE))
    }),
    ("65,536 set aside too many", |asked| {
        asked.before(ASIDE) > asked.before(DONE) && is_mended_by_16_bits(asked, ASIDE)
    }),
    ("the first set aside not done", |asked| {
        let last = asked.before(DONE).checked_sub(1);
        last.is_some_and(|last| is_one_past(asked, FIRST, last))
    }),
    ("65,536 too many before the first set aside", |asked| {
        asked.before(FIRST) > asked.before(DONE) && is_mended_by_16_bits(asked, FIRST)
    }),
    ("a tonne more than is sound, 131,071 done", |asked| {
        let most = TONNES_PER_RECORD * u64::from(asked.before(DONE));
        let tonnes = |place| u64_at(asked.question.checkpoint, place);
        asked.before(DONE) == 131_071 && LEDGERS.into_iter().any(|place| tonnes(place) == most + 1)
    }),
];

fn is_as_large_as_sound(asked: &Compared) -> bool {
    let most = TONNES_PER_RECORD * u64::from(asked.before(DONE));
    let mut ledgers = LEDGERS.into_iter();
    ledgers.all(|place| u64_at(asked.question.checkpoint, place) == most)
}

/// Whether the checkpoint is sound once it is mended.
fn is_mended(asked: &Compared, mend: impl Fn(&mut [u8])) -> bool {
    let book = Book::read(asked.question.book).expect("the checkpoint was looked at");
    let mut mended = asked.question.checkpoint.to_vec();
    mend(&mut mended);
    Checkpoint::read(&mended, &book).is_ok()
}

fn is_mended_with(asked: &Compared, place: usize, count: u32) -> bool {
    is_mended(asked, |checkpoint| {
        put(checkpoint, place, &count.to_le_bytes())
    })
}

/// Whether a count is one more than the greatest that is sound, and nothing else wrong.
fn is_one_past(asked: &Compared, place: usize, greatest: u32) -> bool {
    let is_past = asked.before(place).checked_sub(1) == Some(greatest);
    is_past && is_mended_with(asked, place, greatest)
}

fn is_mended_by_16_bits(asked: &Compared, place: usize) -> bool {
    is_mended_with(asked, place, asked.before(place) % PAST_16_BITS)
}

/// Whether the length alone is wrong, by so much.
fn is_for_length(asked: &Compared, is_so: fn(u32) -> bool) -> bool {
    let right = asked.question.book.len() as u32;
    let wrong = u32_at(asked.question.checkpoint, LENGTH);
    is_so(wrong.abs_diff(right)) && wrong != right && is_mended_with(asked, LENGTH, right)
}
