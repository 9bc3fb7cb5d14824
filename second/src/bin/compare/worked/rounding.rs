//! Hours worked by hand: R goes down, up, and from a half to either even number.

use super::{counted, monitored, Sum};

const PERCENT_12_5: u32 = 0x4148_0000;

/// The bits of a flow in scf/h, and the CO2 of the hour in µg. With 12.5 percent,
/// 1,000 x percent x flow is 12,500 x flow, which is 1,250,000,000 and 12,500
/// times what the flow has over 100,000; 518 x 1,250,000,000 is 647,500,000,000.
///
/// | flow         | 12,500 x flow    | R             | 518 x R                     |
/// |--------------|------------------|---------------|-----------------------------|
/// | 100,000.0625 | 1,250,000,781.25 | 1,250,000,781 | 647,500,000,000 + 404,558   |
/// | 100,000.1875 | 1,250,002,343.75 | 1,250,002,344 | 647,500,000,000 + 1,214,192 |
/// | 100,000.125  | 1,250,001,562.5  | 1,250,001,562 | 647,500,000,000 + 809,116   |
/// | 100,000.375  | 1,250,004,687.5  | 1,250,004,688 | 647,500,000,000 + 2,428,384 |
const HOURS: [(&str, u32, u64); 4] = [
    ("R goes down", 0x47C3_5008, 647_500_404_558),
    ("R goes up", 0x47C3_5018, 647_501_214_192),
    (
        "R goes from a half to the even number below",
        0x47C3_5010,
        647_500_809_116,
    ),
    (
        "R goes from a half to the even number above",
        0x47C3_5030,
        647_502_428_384,
    ),
];

pub fn sums() -> impl Iterator<Item = Sum> {
    HOURS.into_iter().map(|(name, flow, co2_ug)| {
        let readings = [PERCENT_12_5, flow];
        monitored(name, readings, counted(0, co2_ug))
    })
}
