//! Anodes that stand twice.

use super::{of, Upload, DRY, OTHER_WET, P7, P7_UG, UNLISTED, WET, WITHOUT_MONITOR};
use crate::draft::{Anodes, Line};

/// 1,000 kg of metal x 250 g x 3.664 is 916 kg, of half the carbon 458 kg.
const PURE: Anodes = Anodes {
    unit: WET,
    month: 7,
    metal: 1_000,
    net_use: 250,
    impurities: [0; 3],
};
const PURE_UG: u64 = 916_000_000_000;
const HALF: Anodes = Anodes {
    impurities: [2_000, 2_000, 1_000],
    ..PURE
};
const HALF_UG: u64 = 458_000_000_000;

fn edited(place: usize, value: u8) -> Line {
    let mut line = PURE.line();
    line[place] = value;
    line
}

fn on(unit: u16) -> Line {
    Anodes { unit, ..PURE }.line()
}

fn in_month(month: u16) -> Line {
    Anodes { month, ..PURE }.line()
}

fn repeated() -> Vec<Upload> {
    let (pure, half) = (PURE.line(), HALF.line());
    vec![
        ("anodes twice", vec![(pure, 0), (pure, 8)], PURE_UG),
        ("other anodes", vec![(half, 0), (pure, 8)], HALF_UG),
        (
            "anodes three times",
            vec![(half, 0), (pure, 8), (half, 8)],
            HALF_UG,
        ),
        (
            "anodes twice on a unit without a monitor",
            vec![(on(WITHOUT_MONITOR), 0), (on(WITHOUT_MONITOR), 8)],
            PURE_UG,
        ),
        (
            "anodes twice on a dry unit",
            vec![(on(DRY), 0), (on(DRY), 8)],
            PURE_UG,
        ),
        (
            "too much sulphur the second time",
            vec![(pure, 0), (edited(17, 0xFF), 4)],
            PURE_UG,
        ),
        (
            "a fuel number the second time",
            vec![(pure, 0), (edited(4, 1), 1)],
            PURE_UG,
        ),
    ]
}

/// "Set aside or not."
fn set_aside_first() -> Vec<Upload> {
    let pure = PURE.line();
    let firsts = [
        ("a flag with the first anodes", edited(1, 1), 1),
        ("a fuel number with the first anodes", edited(4, 1), 1),
        ("byte 22 with the first anodes", edited(22, 1), 1),
        ("too much metal with the first anodes", edited(11, 0xFF), 4),
        ("too great a use with the first anodes", edited(15, 1), 4),
        ("too much ash with the first anodes", edited(19, 0xFF), 4),
    ];
    let upload = |(name, line, reason)| (name, vec![(line, reason), (pure, 8)], 0);
    firsts.map(upload).to_vec()
}

fn set_aside_alike() -> Vec<Upload> {
    vec![
        (
            "anodes twice on a unit that isn't listed",
            vec![(on(UNLISTED), 2); 2],
            0,
        ),
        ("anodes of month 0 twice", vec![(in_month(0), 4); 2], 0),
        ("anodes of month 13 twice", vec![(in_month(13), 4); 2], 0),
    ]
}

fn not_the_same() -> Vec<Upload> {
    let pure = PURE.line();
    let hour = of(WET, 7, P7);
    vec![
        (
            "the same anodes in two months",
            vec![(pure, 0), (in_month(8), 0)],
            2 * PURE_UG,
        ),
        (
            "the same anodes on two units",
            vec![(pure, 0), (on(OTHER_WET), 0)],
            2 * PURE_UG,
        ),
        (
            "hour 7, then anodes of month 7",
            vec![(hour, 0), (pure, 0)],
            P7_UG + PURE_UG,
        ),
        (
            "anodes of month 7, then hour 7",
            vec![(pure, 0), (hour, 0)],
            P7_UG + PURE_UG,
        ),
        (
            "an hour and anodes, then both again",
            vec![(hour, 0), (pure, 0), (hour, 8), (pure, 8)],
            P7_UG + PURE_UG,
        ),
        (
            "anodes after a record of kind 3",
            vec![(edited(0, 3), 1), (pure, 0)],
            PURE_UG,
        ),
    ]
}

pub fn uploads() -> [Vec<Upload>; 4] {
    [
        repeated(),
        set_aside_first(),
        set_aside_alike(),
        not_the_same(),
    ]
}
