//! Measured heat, which a supplier quotes as a high or as a low heat value.

use crate::lines::NATURAL_GAS;

/// kJ per unit of fuel.
#[derive(Clone, Copy, Debug)]
pub enum MeasuredHeat {
    High(u32),
    Low(u32),
}

impl MeasuredHeat {
    /// Whether a record of a fuel of this class may have it: 1.11 is natural
    /// gas's factor, so a low value of another class is out of range.
    pub fn is_in_range(self, class: u8) -> bool {
        match self {
            MeasuredHeat::High(heat) => (1..=200_000).contains(&heat),
            MeasuredHeat::Low(heat) => class == NATURAL_GAS && (1..=180_000).contains(&heat),
        }
    }

    /// The high heat value of a heat in range.
    pub fn high(self) -> u32 {
        match self {
            MeasuredHeat::High(heat) => heat,
            MeasuredHeat::Low(heat) => high_from_low(heat),
        }
    }
}

/// 000 Eq. 20-11 for natural gas: "1.11 times it, to the nearest kJ, half
/// upward". At most 199,800, so within what a high value may be.
fn high_from_low(low: u32) -> u32 {
    let hundredths = 111 * low;
    let (whole, rest) = (hundredths / 100, hundredths % 100);
    whole + u32::from(rest >= 50)
}

#[cfg(test)]
mod tests {
    use super::*;

    #[test]
    fn a_low_value_counts_1_11_times_half_upward() {
        let worked = [
            (1, 1),             // 1.11
            (4, 4),             // 4.44
            (5, 6),             // 5.55
            (49, 54),           // 54.39
            (50, 56),           // 55.5
            (51, 57),           // 56.61
            (100, 111),         // 111
            (150, 167),         // 166.5
            (35_000, 38_850),   // 38,850
            (35_050, 38_906),   // 38,905.5
            (179_950, 199_745), // 199,744.5
            (180_000, 199_800), // 199,800
        ];
        for (low, high) in worked {
            assert_eq!(MeasuredHeat::Low(low).high(), high, "{low}");
            assert_eq!(MeasuredHeat::High(low).high(), low);
        }
    }

    #[test]
    fn only_natural_gas_has_a_low_value() {
        for class in 0..=3 {
            let in_range = |heat: MeasuredHeat| heat.is_in_range(class);
            let low = [0, 1, 180_000, 180_001].map(MeasuredHeat::Low);
            let is_gas = class == NATURAL_GAS;
            assert_eq!(low.map(in_range), [false, is_gas, is_gas, false]);
            let high = [0, 1, 200_000, 200_001].map(MeasuredHeat::High);
            assert_eq!(high.map(in_range), [false, true, true, false]);
        }
    }
}
