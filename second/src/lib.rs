//! What the requirements ask for, reckoned by other means than floating point and
//! split ledgers: readings are whole numbers times powers of two, masses are
//! whole nanograms in 128 bits, and tonnes appear only where bytes are written.

pub mod annual;
pub mod anodes;
pub mod answer;
pub mod book;
pub mod bytes;
pub mod checkpoint;
pub mod earlier_records;
pub mod fuel_record;
pub mod hour;
pub mod ledger;
pub mod lines;
pub mod measured_carbon;
mod measured_heat;
pub mod quotient;
pub mod record;
pub mod refusal;
pub mod replay;
pub mod report;
pub mod single;
pub mod warming;

/// Every line of a book has this many bytes (the requirements, "The book").
pub const LINE: usize = 32;
