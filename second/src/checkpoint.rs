//! The 96 bytes of a checkpoint, and a wake's way through the records.

use crate::book::Book;
use crate::bytes::{all_zero, u16_at, u32_at, u64_at};
use crate::ledger::{Ledgers, NG_PER_TONNE};
use crate::record::Judged;
use crate::refusal::Refusal;

pub const LENGTH: usize = 96;
const LEDGER_PLACES: [usize; 4] = [16, 32, 48, 64];
const MOST_TONNES_PER_RECORD: u64 = 4_000_000;

#[derive(Clone, Copy, Debug, PartialEq, Eq)]
pub struct Checkpoint {
    pub done: u32,
    pub set_aside: u32,
    /// Index of the first record set aside, 0 if none.
    pub first: u32,
    /// Its reason, 0 if none.
    pub reason: u8,
    pub ledgers: Ledgers,
    book_length: u32,
    year: u16,
}

impl Checkpoint {
    /// "Only the book length and the year are not 0."
    pub fn fresh(book: &Book) -> Checkpoint {
        Checkpoint {
            done: 0,
            set_aside: 0,
            first: 0,
            reason: 0,
            ledgers: Ledgers::default(),
            book_length: book.length,
            year: book.year,
        }
    }

    pub fn read(bytes: &[u8], book: &Book) -> Result<Checkpoint, Refusal> {
        if bytes.len() != LENGTH {
            return Err(Refusal::CheckpointLength);
        }
        let done = u32_at(bytes, 0);
        let ledgers = read_ledgers(bytes, done).ok_or(Refusal::CheckpointUnsound)?;
        let checkpoint = Checkpoint {
            done,
            set_aside: u32_at(bytes, 4),
            first: u32_at(bytes, 8),
            reason: bytes[12],
            ledgers,
            book_length: u32_at(bytes, 80),
            year: u16_at(bytes, 84),
        };
        let zeros = all_zero(&bytes[13..16]) && all_zero(&bytes[86..]);
        if zeros && checkpoint.fits(book) {
            Ok(checkpoint)
        } else {
            Err(Refusal::CheckpointUnsound)
        }
    }

    fn fits(&self, book: &Book) -> bool {
        let first_is_sound = if self.set_aside == 0 {
            self.first == 0 && self.reason == 0
        } else {
            self.first < self.done && (1..=8).contains(&self.reason)
        };
        self.book_length == book.length
            && self.year == book.year
            && self.done <= book.record_count()
            && self.set_aside <= self.done
            && first_is_sound
    }

    /// Takes in the record at place `done`.
    pub fn take(&mut self, judged: Judged) {
        match judged {
            Ok(addition) => self.ledgers.add(&addition),
            Err(reason) => {
                if self.set_aside == 0 {
                    self.first = self.done;
                    self.reason = reason as u8;
                }
                self.set_aside += 1;
            }
        }
        self.done += 1;
    }

    pub fn bytes(&self) -> [u8; LENGTH] {
        let mut bytes = [0; LENGTH];
        bytes[0..4].copy_from_slice(&self.done.to_le_bytes());
        bytes[4..8].copy_from_slice(&self.set_aside.to_le_bytes());
        bytes[8..12].copy_from_slice(&self.first.to_le_bytes());
        bytes[12] = self.reason;
        for (place, ng) in LEDGER_PLACES.into_iter().zip(self.ledgers.in_order()) {
            let tonnes = (ng / NG_PER_TONNE) as u64;
            let rest = (ng % NG_PER_TONNE) as u64;
            bytes[place..place + 8].copy_from_slice(&tonnes.to_le_bytes());
            bytes[place + 8..place + 16].copy_from_slice(&rest.to_le_bytes());
        }
        bytes[80..84].copy_from_slice(&self.book_length.to_le_bytes());
        bytes[84..86].copy_from_slice(&self.year.to_le_bytes());
        bytes
    }
}

/// Nothing if a rest or the tonnes of a ledger are over their limit.
fn read_ledgers(bytes: &[u8], done: u32) -> Option<Ledgers> {
    let mut totals = [0; 4];
    for (total, place) in totals.iter_mut().zip(LEDGER_PLACES) {
        let tonnes = u64_at(bytes, place);
        let rest = u128::from(u64_at(bytes, place + 8));
        if tonnes > MOST_TONNES_PER_RECORD * u64::from(done) || rest >= NG_PER_TONNE {
            return None;
        }
        *total = u128::from(tonnes) * NG_PER_TONNE + rest;
    }
    Some(Ledgers::from_order(totals))
}
