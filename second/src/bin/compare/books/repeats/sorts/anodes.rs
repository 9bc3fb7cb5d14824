//! What can be the matter with an anode record.

use super::{Fault, Sort};
use crate::draft::{put, Line, ANODES, IMPURITY_PLACES, LINE, MOST_IMPURITY, MOST_METAL, MOST_USE};

pub const SORTS: [Sort; 29] = [
    (Fault::None, |_| {}),
    (Fault::None, |line| put_metal(line, 0)),
    (Fault::None, |line| put_use(line, MOST_USE)),
    (Fault::None, |line| put_impurities(line, [0, 0, 0])),
    (Fault::None, |line| {
        put_impurities(line, [0, MOST_IMPURITY, 0])
    }),
    (Fault::Form, |line| line[1] = 1),
    (Fault::Form, |line| line[1] = 0x80),
    (Fault::Form, |line| line[4] = 1),
    (Fault::Form, |line| line[5] = 1),
    (Fault::Form, |line| line[22] = 1),
    (Fault::Form, |line| line[LINE - 1] = 0xFF),
    (Fault::Range, |line| put_metal(line, MOST_METAL + 1)),
    (Fault::Range, |line| put_metal(line, u32::MAX)),
    (Fault::Range, |line| put_use(line, MOST_USE + 1)),
    (Fault::Range, |line| put_use(line, u32::MAX)),
    (Fault::Range, |line| {
        put_impurities(line, [MOST_IMPURITY + 1, 0, 0])
    }),
    (Fault::Range, |line| {
        put_impurities(line, [0, MOST_IMPURITY + 1, 0])
    }),
    (Fault::Range, |line| {
        put_impurities(line, [0, 0, MOST_IMPURITY + 1])
    }),
    (Fault::Range, |line| {
        put_impurities(line, [1, 0, MOST_IMPURITY])
    }),
    (Fault::Range, |line| put_impurities(line, [u16::MAX; 3])),
    // Its ash stands where an hour has none, its use where fuel without flags has none.
    (Fault::OtherKind, |line| line[0] = 0),
    (Fault::OtherKind, |line| line[0] = 1),
    (Fault::OtherKind, |line| line[0] = 2),
    (Fault::OtherKind, |line| line[0] = 3),
    (Fault::OtherKind, |line| line[0] = 5),
    (Fault::OtherKind, |line| line[0] = 6),
    (Fault::OtherKind, |line| line[0] = ANODES | 0x10),
    (Fault::OtherKind, |line| line[0] = ANODES | 0x80),
    (Fault::OtherKind, |line| line[0] = 0xFF),
];

fn put_metal(line: &mut Line, metal: u32) {
    put(line, 8, &metal.to_le_bytes());
}

fn put_use(line: &mut Line, net_use: u32) {
    put(line, 12, &net_use.to_le_bytes());
}

fn put_impurities(line: &mut Line, impurities: [u16; 3]) {
    for (place, impurity) in IMPURITY_PLACES.into_iter().zip(impurities) {
        put(line, place, &impurity.to_le_bytes());
    }
}
