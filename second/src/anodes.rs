//! Anodes that a smelter's cells consume in a month (000 Eq. 70-1, prebaked anodes).

use crate::book::Book;
use crate::bytes::{all_zero, u16_at, u32_at};
use crate::measured_carbon::UG_CO2_PER_MG_CARBON;
use crate::record::{Addition, Co2Ledger, Judged, Reason};

const MOST_METAL: u32 = 100_000_000;
/// In g per kg of metal, so as much anode as metal.
const MOST_USE: u32 = 1_000;
/// All of the anode, in hundredths of a percent.
const WHOLE: u32 = 10_000;

pub fn judge(book: &Book, line: &[u8]) -> Judged {
    if line[1] != 0 || !all_zero(&line[4..6]) || !all_zero(&line[22..]) {
        return Err(Reason::Form);
    }
    book.unit(u16_at(line, 2)).ok_or(Reason::UnitNotListed)?;
    let is_month = (1..=12).contains(&u16_at(line, 6));
    let tenths = tenths_of_ug(line).filter(|_| is_month);
    Ok(Addition {
        method: 0,
        ledger: Co2Ledger::Fossil,
        co2_ug: nearest_tenth(tenths.ok_or(Reason::OutOfRange)?),
        ch4_ng: 0,
        n2o_ng: 0,
    })
}

/// Ten times the CO2 of an anode record in µg, or nothing where metal, use or an
/// impurity is out of range. At most 10^8 x 1,000 x 10,000 x 3,664: below 2^62.
pub fn tenths_of_ug(line: &[u8]) -> Option<u64> {
    let (metal, net_use) = (u32_at(line, 8), u32_at(line, 12));
    let impurities = [16, 18, 20].map(|place| u32::from(u16_at(line, place)));
    // One impurity past the whole makes their sum pass it too.
    let carbon = WHOLE.checked_sub(impurities.iter().sum())?;
    let in_range = metal <= MOST_METAL && net_use <= MOST_USE;
    let grams = u64::from(metal) * u64::from(net_use);
    // A ten-thousandth of a gram is a tenth of a mg.
    in_range.then(|| grams * u64::from(carbon) * UG_CO2_PER_MG_CARBON)
}

/// "To the nearest, half to even." 3,664 is even, so no remainder is 5 and there is
/// no half.
fn nearest_tenth(tenths: u64) -> u64 {
    (tenths + 5) / 10
}

#[cfg(test)]
mod tests {
    use super::*;
    use crate::LINE;

    fn line(metal: u32, net_use: u32, impurities: [u16; 3]) -> [u8; LINE] {
        let mut line = [0; LINE];
        line[8..12].copy_from_slice(&metal.to_le_bytes());
        line[12..16].copy_from_slice(&net_use.to_le_bytes());
        for (place, impurity) in [16, 18, 20].into_iter().zip(impurities) {
            line[place..place + 2].copy_from_slice(&impurity.to_le_bytes());
        }
        line
    }

    /// 366.4 times the ten-thousandths of a gram that are carbon.
    #[test]
    fn a_tenth_of_a_microgram_goes_to_the_nearest() {
        let worked = [
            (0, 0),
            (1, 366),   // 366.4
            (2, 733),   // 732.8
            (3, 1_099), // 1,099.2
            (4, 1_466), // 1,465.6
            (5, 1_832),
        ];
        for (carbon, ug) in worked {
            let tenths = tenths_of_ug(&line(1, 1, [10_000 - carbon, 0, 0]));
            assert_eq!(tenths.map(nearest_tenth), Some(ug), "{carbon}");
        }
        let most = tenths_of_ug(&line(100_000_000, 1_000, [0; 3]));
        assert_eq!(most.map(nearest_tenth), Some(366_400_000_000_000_000));
    }

    #[test]
    fn impurities_add_up_to_the_whole_at_most() {
        let tenths = |impurities| tenths_of_ug(&line(1, 1, impurities));
        assert_eq!(tenths([5_000, 4_000, 1_000]), Some(0));
        assert_eq!(tenths([3_333, 3_333, 3_333]), Some(3_664));
        let wrong = [
            [10_001, 0, 0],
            [5_000, 5_000, 1],
            [u16::MAX; 3],
            [0, u16::MAX, 1],
        ];
        for impurities in wrong {
            assert_eq!(tenths(impurities), None, "{impurities:?}");
        }
    }
}
