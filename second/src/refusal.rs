//! The numbers 20 to 41 of the requirements, "Checkpoint, wake and numbers".

/// Why a call is refused. The order of the cases is the order of the numbers.
#[derive(Clone, Copy, Debug, PartialEq, Eq)]
pub enum Refusal {
    BookLength,
    Trailer,
    UnitLines,
    FuelLines,
    CheckpointLength,
    CheckpointUnsound,
    OutputLength,
    Unfinished { done: u32 },
    SetAside { first: u32, reason: u8 },
}

impl Refusal {
    pub fn number(self) -> u8 {
        match self {
            Refusal::BookLength => 20,
            Refusal::Trailer => 21,
            Refusal::UnitLines => 22,
            Refusal::FuelLines => 23,
            Refusal::CheckpointLength => 30,
            Refusal::CheckpointUnsound => 31,
            Refusal::OutputLength => 32,
            Refusal::Unfinished { .. } => 40,
            Refusal::SetAside { .. } => 41,
        }
    }
}
