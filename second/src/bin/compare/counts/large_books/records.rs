//! What was compared of the records of large books by themselves.

use second::answer::{Call, NO_SUCH_RECORD};

use super::compared::{Compared, Row, Table, PAST_16_BITS};
use crate::counts::repeats::asked::Asked;
use crate::draft::{ANALYSED_GAS, ANODES, FUEL_RECORD, HOUR, LINE, LONGEST_BOOK};

const REPEATED: u8 = 8;

pub const TABLES: [Table; 4] = [
    Table {
        name: "large book, record",
        is_of: is_asked,
        rows: &PLACES,
    },
    Table {
        name: "large book past record 65,536,",
        is_of: |record| is_there(record) && index(record) > PAST_16_BITS,
        rows: &PAST,
    },
    Table {
        name: "large book, hour repeated,",
        is_of: |record| is_repeat(record, HOUR),
        rows: &REPEATS,
    },
    Table {
        name: "large book, anodes repeated,",
        is_of: |record| is_repeat(record, ANODES),
        rows: &REPEATS,
    },
];

const PLACES: [Row; 7] = [
    ("2,047", |record| index(record) == 2_047),
    ("2,048", |record| index(record) == 2_048),
    ("65,535", |record| index(record) == 65_535),
    ("65,536", |record| index(record) == 65_536),
    ("65,537", |record| index(record) == 65_537),
    ("131,000 or later, the last", |record| {
        index(record) >= 131_000 && record.is_last(index(record))
    }),
    ("131,000 or later, no such record", |record| {
        index(record) >= 131_000 && method(record) == NO_SUCH_RECORD
    }),
];

const PAST: [Row; 12] = [
    ("fuel counted", |record| is_counted(record, FUEL_RECORD)),
    ("an hour counted", |record| is_counted(record, HOUR)),
    ("analysed gas counted", |record| {
        is_counted(record, ANALYSED_GAS)
    }),
    ("anodes counted", |record| is_counted(record, ANODES)),
    ("reason 1", |record| reason(record) == 1),
    ("reason 2", |record| reason(record) == 2),
    ("reason 3", |record| reason(record) == 3),
    ("reason 4", |record| reason(record) == 4),
    ("reason 5", |record| reason(record) == 5),
    ("reason 6", |record| reason(record) == 6),
    ("reason 7", |record| reason(record) == 7),
    ("reason 8", |record| reason(record) == 8),
];

/// Of the latest record in which it stands.
const REPEATS: [Row; 7] = [
    ("2,048 as 2,047", |record| stands(record, 2_047, 2_048)),
    ("2,048 as the first", |record| stands(record, 0, 2_048)),
    ("65,536 as 65,535", |record| stands(record, 65_535, 65_536)),
    ("65,537 as 1", |record| stands(record, 1, 65_537)),
    ("the last as the first", |record| {
        is_last(record) && stands(record, 0, index(record))
    }),
    ("the last as 65,535", |record| {
        is_last(record) && stands(record, 65_535, index(record))
    }),
    ("the last as 65,536", |record| {
        is_last(record) && stands(record, 65_536, index(record))
    }),
];

fn is_asked(compared: &Compared) -> bool {
    compared.is(Call::Record) && compared.number == 0
}

fn is_there(compared: &Compared) -> bool {
    is_asked(compared) && method(compared) != NO_SUCH_RECORD
}

fn is_repeat(compared: &Compared, kind: u8) -> bool {
    is_there(compared) && reason(compared) == REPEATED && line(compared)[0] == kind
}

fn is_counted(record: &Compared, kind: u8) -> bool {
    reason(record) == 0 && line(record)[0] == kind
}

fn is_last(record: &Compared) -> bool {
    record.question.book.len() == LONGEST_BOOK && record.is_last(index(record))
}

/// Whether these are the places of the record and of the latest that is the same.
fn stands(record: &Compared, first: u32, later: u32) -> bool {
    let asked = Asked {
        book: record.question.book,
        index: index(record) as usize,
        reason: reason(record),
    };
    index(record) == later && asked.distance() == Some((later - first) as usize)
}

fn index(record: &Compared) -> u32 {
    record.question.argument
}

fn reason(record: &Compared) -> u8 {
    record.answer.head[1]
}

fn method(record: &Compared) -> u8 {
    record.answer.head[2]
}

fn line<'a>(record: &Compared<'a>) -> &'a [u8] {
    &record.question.book[LINE * index(record) as usize..][..LINE]
}
