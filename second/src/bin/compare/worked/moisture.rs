//! Hours of dry units, worked by hand: moisture at its edges, every way to round R
//! from a multiple below 1,000, and what moisture is refused for.

use super::{counted, set_aside, sum, Sum, FUEL_1, PLAIN};
use crate::draft::{dry_unit, hour, unit, with_moisture, Line, DRY};
use crate::expectation::{Expectation, Field};

const P7: [u32; 2] = [0x4148_0000, 0x49F4_2400];
const P8: [u32; 2] = [0x3E80_0000, 0x3E80_0000];
const P9: [u32; 2] = [0x3F40_0000, 0x3E80_0000];

/// 12.5 percent and the flow of these bits.
const fn at_12_5(flow: u32) -> [u32; 2] {
    [0x4148_0000, flow]
}

/// 0.5 percent and the flow of these bits.
const fn at_0_5(flow: u32) -> [u32; 2] {
    [0x3F00_0000, flow]
}

const ONE: u32 = 0x3F80_0000;
const THREE: u32 = 0x4040_0000;
const FIVE: u32 = 0x40A0_0000;
const FLOW_100_000_0625: u32 = 0x47C3_5008;
const FLOW_100_000_1875: u32 = 0x47C3_5018;

/// A dry hour: its readings, its moisture, and its CO2 in µg.
type Hour = (&'static str, [u32; 2], u16, u64);

/// 12.5 x 2,000,000 is 25,000,000. Without moisture P7 to P9 are what they are on
/// a wet unit.
///
/// | moisture | 25,000,000 x | R              | 518 x R            |
/// |----------|--------------|----------------|--------------------|
/// | 1        | 999          | 24,975,000,000 | 12,937,050,000,000 |
/// | 120      | 880          | 22,000,000,000 | 11,396,000,000,000 |
/// | 500      | 500          | 12,500,000,000 | 6,475,000,000,000  |
/// | 999      | 1            | 25,000,000     | 12,950,000,000     |
/// | 1,000    | 0            | 0              | 0                  |
const EDGES: [Hour; 8] = [
    ("P7 on a dry unit", P7, 0, 12_950_000_000_000),
    ("P8 on a dry unit", P8, 0, 32_116),
    ("P9 on a dry unit", P9, 0, 97_384),
    ("P7, moisture 0.1 percent", P7, 1, 12_937_050_000_000),
    ("P7, moisture 12 percent", P7, 120, 11_396_000_000_000),
    ("P7, moisture 50 percent", P7, 500, 6_475_000_000_000),
    ("P7, moisture 99.9 percent", P7, 999, 12_950_000_000),
    ("P7, moisture 100 percent", P7, 1_000, 0),
];

/// Odd multiples:
///
/// | percent x flow      | x   | product             | R             | 518 x R         |
/// |---------------------|-----|---------------------|---------------|-----------------|
/// | 12.5 x 100,000.0625 | 999 | 1,248,750,780.46875 | 1,248,750,780 | 646,852,904,040 |
/// | 12.5 x 100,000.1875 | 997 | 1,246,252,336.71875 | 1,246,252,337 | 645,558,710,566 |
/// | 0.5 x 5             | 997 | 2,492.5             | 2,492         | 1,290,856       |
/// | 0.5 x 5             | 999 | 2,497.5             | 2,498         | 1,293,964       |
/// | 0.5 x 1             | 1   | 0.5                 | 0             | 0               |
/// | 0.5 x just below 1  | 1   | just below 0.5      | 0             | 0               |
/// | 0.5 x just above 1  | 1   | just above 0.5      | 1             | 518             |
/// | 0.5 x 3             | 1   | 1.5                 | 2             | 1,036           |
const ODD_MULTIPLES: [Hour; 8] = [
    (
        "R of 999 times goes down",
        at_12_5(FLOW_100_000_0625),
        1,
        646_852_904_040,
    ),
    (
        "R of 997 times goes up",
        at_12_5(FLOW_100_000_1875),
        3,
        645_558_710_566,
    ),
    (
        "R of 997 times goes from a half to the even number below",
        at_0_5(FIVE),
        3,
        1_290_856,
    ),
    (
        "R of 999 times goes from a half to the even number above",
        at_0_5(FIVE),
        1,
        1_293_964,
    ),
    ("R goes from a half to 0", at_0_5(ONE), 999, 0),
    ("R goes from below a half to 0", at_0_5(ONE - 1), 999, 0),
    ("R goes from above a half to 1", at_0_5(ONE + 1), 999, 518),
    ("R goes from one and a half to 2", at_0_5(THREE), 999, 1_036),
];

/// P8's 0.25 x 0.25 is 0.0625. Rounded before the moisture is taken, its R would
/// be 62, of which 504 thousandths are 31.248.
///
/// | x   | product | R  | 518 x R |
/// |-----|---------|----|---------|
/// | 500 | 31.25   | 31 | 16,058  |
/// | 508 | 31.75   | 32 | 16,576  |
/// | 488 | 30.5    | 30 | 15,540  |
/// | 504 | 31.5    | 32 | 16,576  |
const EVEN_MULTIPLES: [Hour; 4] = [
    ("R of 500 times goes down", P8, 500, 16_058),
    ("R of 508 times goes up", P8, 492, 16_576),
    (
        "R of 488 times goes from a half to the even number below",
        P8,
        512,
        15_540,
    ),
    (
        "R of 504 times goes from a half to the even number above",
        P8,
        496,
        16_576,
    ),
];

fn moist(
    name: &'static str,
    unit: Line,
    [percent, flow]: [u32; 2],
    moisture: u16,
    printed: Vec<Expectation>,
) -> Sum {
    Sum {
        name,
        unit,
        fuel: FUEL_1,
        record: with_moisture(hour(1, 1, percent, flow), moisture),
        printed,
    }
}

fn dry((name, readings, moisture, co2_ug): Hour) -> Sum {
    let printed = counted(0, co2_ug);
    moist(name, dry_unit(1, 2_500), readings, moisture, printed)
}

fn refused() -> Vec<Sum> {
    let (wet, plain) = (unit(1, true, 2_500), unit(1, false, 2_500));
    let dry = dry_unit(1, 2_500);
    let mut dry_flag_alone = plain;
    dry_flag_alone[2] = DRY;
    let reason = |name, unit, moisture, reason| moist(name, unit, P7, moisture, set_aside(reason));
    vec![
        reason("moisture 100.1 percent", dry, 1_001, 4),
        reason("moisture 6,553.5 percent", dry, 65_535, 4),
        reason("moisture on a wet unit", wet, 1, 1),
        reason("moisture 100.1 percent on a wet unit", wet, 1_001, 1),
        reason("moisture without a monitor", plain, 1, 1),
        reason("an hour without monitor and moisture", plain, 0, 5),
        reason("moisture on another unit", dry_unit(2, 2_500), 1, 2),
        moist(
            "a dry unit without a monitor",
            dry_flag_alone,
            P7,
            0,
            vec![Field::Number.is(22)],
        ),
    ]
}

/// P1's record, with P1's CH4 and N2O and no CO2.
fn fuel_record() -> Sum {
    let printed = vec![
        Field::Reason.is(0),
        Field::Method.is(4),
        Field::Ledger.is(0),
        Field::Co2Ug.is(0),
        Field::Ch4Ng.is(34_200_000_000),
        Field::N2oNg.is(3_420_000_000),
    ];
    Sum {
        unit: dry_unit(1, 2_500),
        ..sum("P1 on a dry unit", 2_500, PLAIN, printed)
    }
}

pub fn sums() -> impl Iterator<Item = Sum> {
    let hours = EDGES.into_iter().chain(ODD_MULTIPLES).chain(EVEN_MULTIPLES);
    let others = refused().into_iter().chain([fuel_record()]);
    hours.map(dry).chain(others)
}
