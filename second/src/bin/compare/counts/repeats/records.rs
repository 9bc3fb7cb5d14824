//! What was compared of records by themselves that a unit has once: what stood in an
//! earlier one, what the record itself is, and what only resembles a repeat.

use super::super::Rows;
use super::asked::Asked;

const REPEATED: u8 = 8;

pub type Row = (&'static str, fn(&Asked) -> bool);

/// What is told apart of one kind.
pub struct Tables {
    pub names: [&'static str; 3],
    /// Asked of records with reason 8.
    pub repeats: &'static [Row],
    /// Asked of records that stand in an earlier one and have another reason.
    pub other_reasons: &'static [Row],
    /// Asked of records that count.
    pub near_misses: &'static [Row],
}

pub struct RecordCounts {
    tables: &'static Tables,
    counts: [Vec<u64>; 3],
}

impl Tables {
    fn in_order(&self) -> [&'static [Row]; 3] {
        [self.repeats, self.other_reasons, self.near_misses]
    }
}

impl RecordCounts {
    pub fn new(tables: &'static Tables) -> RecordCounts {
        RecordCounts {
            tables,
            counts: tables.in_order().map(|rows| vec![0; rows.len()]),
        }
    }

    pub fn count(&mut self, asked: &Asked) {
        let place = match asked.reason {
            REPEATED => 0,
            0 => 2,
            _ if asked.same().next().is_some() => 1,
            _ => return,
        };
        let rows = self.tables.in_order()[place].iter();
        for (count, (_, is_so)) in self.counts[place].iter_mut().zip(rows) {
            *count += u64::from(is_so(asked));
        }
    }

    pub fn table(&self) -> Vec<(&'static str, Rows)> {
        let names_and_rows = self.tables.names.into_iter().zip(self.tables.in_order());
        let table = names_and_rows
            .zip(&self.counts)
            .map(|((name, rows), counts)| {
                let names = rows.iter().map(|(name, _)| name.to_string());
                (name, names.zip(counts.iter().copied()).collect())
            });
        table.collect()
    }
}

/// The names of what is counted of the last of these records, in a book of a wet unit 1,
/// a dry unit 2 and a wet unit 257.
#[cfg(test)]
pub fn counted(tables: &'static Tables, records: &[crate::draft::Line]) -> Vec<String> {
    let judged: Vec<crate::repeats::Judged> = records.iter().map(|&line| (line, 0)).collect();
    let book = crate::repeats::book(&crate::repeats::monitored([1, 2, 257]), &judged);
    let index = records.len() - 1;
    let mut counts = RecordCounts::new(tables);
    counts.count(&Asked {
        book: &book,
        index,
        reason: second::answer::one_record(&book, index as u32)[1],
    });
    let rows = counts.table().into_iter().flat_map(|(_, rows)| rows);
    let found = rows.filter(|(_, count)| *count > 0);
    found.map(|(name, _)| name).collect()
}
