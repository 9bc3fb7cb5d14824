//! What was compared of reports of large books.

use second::answer::Call;
use second::bytes::u64_at;

use super::compared::{Compared, Row, Table, PAST_16_BITS};

pub const TABLES: [Table; 1] = [Table {
    name: "report of a large book,",
    is_of: |compared| compared.is(Call::Report),
    rows: &REPORTS,
}];

/// Records of the greatest amount, heat and factors have so many kg of CO2, and so many
/// of CH4 and of N2O.
const LARGEST_CO2: u64 = 4_000_000_000;
const LARGEST_OTHER: u64 = 4_000_000;

const REPORTS: [Row; 11] = [
    ("number 20", |report| report.number == 20),
    ("40, 65,535 done", |report| {
        report.number == 40 && report.told() == 65_535
    }),
    ("40, 65,536 done", |report| {
        report.number == 40 && report.told() == 65_536
    }),
    ("40, more done", |report| {
        report.number == 40 && report.told() > PAST_16_BITS
    }),
    ("41, record 65,536 the first", |report| {
        report.number == 41 && report.told() == 65_536
    }),
    ("41, the last record the first", |report| {
        report.number == 41 && report.told() > 131_000 && report.is_last(report.told())
    }),
    ("the largest fossil CO2", |report| {
        is_figure(report, 0, LARGEST_CO2)
    }),
    ("the largest biomass CO2", |report| {
        is_figure(report, 1, LARGEST_CO2)
    }),
    ("the largest CH4", |report| {
        is_figure(report, 2, LARGEST_OTHER)
    }),
    ("the largest N2O", |report| {
        is_figure(report, 3, LARGEST_OTHER)
    }),
    ("figures of ledgers as large as is sound", |report| {
        is_given(report) && figure(report, 4) >= 325 * u64::from(report.records()) * LARGEST_CO2
    }),
];

fn is_given(report: &Compared) -> bool {
    report.number == 0 && report.records() > 131_000
}

fn figure(report: &Compared, place: usize) -> u64 {
    u64_at(&report.answer.head, 8 + 8 * place)
}

/// So many kg of each record.
fn is_figure(report: &Compared, place: usize, of_one: u64) -> bool {
    is_given(report) && figure(report, place) == of_one * u64::from(report.records())
}
