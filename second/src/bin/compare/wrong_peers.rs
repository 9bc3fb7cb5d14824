//! Other programs that are wrong on purpose, to show that each group can fail.

mod analysed_gas;
mod anodes;
mod calls;
mod frames;
mod large_books;
mod low_heat;
mod moisture;
mod records;
mod repeats;
mod rounding;
mod unit_flags;
mod warming;

pub use analysed_gas::*;
pub use anodes::*;
pub use calls::*;
pub use frames::*;
pub use large_books::*;
pub use low_heat::*;
pub use moisture::*;
pub use records::*;
pub use repeats::*;
pub use rounding::*;
pub use unit_flags::*;
pub use warming::*;
