//! A small sound book that has every kind of line.

use crate::draft::{
    dry_unit, hour, put, unit, with_moisture, Analysed, Anodes, Burnt, Draft, FuelLine, Line,
    FIRST_SET, LAST_HOUR, NUMBER_PLACE,
};

const UNMEASURED: Burnt = Burnt {
    unit: 1,
    fuel: 1,
    month: 7,
    amount: 70_000,
    heat: None,
    heat_is_low: false,
    carbon: None,
};

const fn fuel(number: u16, kind: u8, class: u8, mvc: u32) -> FuelLine {
    FuelLine {
        number,
        kind,
        class,
        heat: 38_000,
        co2: 50_000,
        ch4: 900,
        n2o: 90,
        mvc,
    }
}

/// Fuel records of a gas and of a solid with everything measured, one with
/// nothing measured, an hour, and one with moisture, whose R is rounded; a plain,
/// a wet and a dry unit; fuels of every kind and class but "other".
pub fn small_book() -> Draft {
    let burnt = |fuel, heat, carbon| Burnt {
        fuel,
        heat,
        carbon,
        ..UNMEASURED
    };
    let fuels = [fuel(1, 3, 1, 0), fuel(2, 1, 3, 0), fuel(3, 2, 2, 0)];
    // 12.5 percent x 200,000.1875 scf/h x 229 is 572,500,536.71875. 771 is 3 x 256
    // + 3, so another lower byte alone makes the moisture 1,000 or 1,001.
    let moist = with_moisture(hour(3, 4_001, 0x4148_0000, 0x4843_500C), 771);
    Draft {
        records: vec![
            burnt(1, Some(39_000), Some(520_000)).line(),
            burnt(2, Some(20_000), Some(500_000)).line(),
            burnt(3, None, None).line(),
            hour(2, 4_000, 0x4148_0000, 0x49F4_2400),
            moist,
        ],
        units: vec![
            unit(1, false, 2_500),
            unit(2, true, 2_501),
            dry_unit(3, 2_501),
        ],
        fuels: fuels.map(|fuel| fuel.line()).to_vec(),
        year: 2010,
        warming_set: FIRST_SET,
    }
}

/// The same, but record 0 has nothing measured except a low heat value, near the
/// end of the range, whose 1.11-fold is a half: 199,744.5.
pub fn small_book_with_low_heat() -> Draft {
    let gas = Burnt {
        heat: Some(179_950),
        heat_is_low: true,
        ..UNMEASURED
    };
    let mut draft = small_book();
    draft.records[0] = gas.line();
    draft
}

/// The same, but with hours alone: the wet unit's three times, and twice the dry unit's,
/// which is the last of the year; each with 25 percent the first time.
pub fn small_book_with_repeats() -> Draft {
    let mut draft = small_book();
    let with_25_percent = |mut hour: Line| {
        put(&mut hour, 8, &25f32.to_le_bytes());
        hour
    };
    let [wet, mut dry] = [3, 4].map(|place| draft.records[place]);
    put(&mut dry, NUMBER_PLACE, &LAST_HOUR.to_le_bytes());
    draft.records = vec![with_25_percent(wet), wet, with_25_percent(dry), wet, dry];
    draft
}

/// 1,234 kg of metal x 431 g x 97.31 percent x 3.664 is 1,896,292,674,793.6 µg. 431 is
/// 256 + 175, so another upper byte alone makes the use 943 or 1,199.
const ANODES: Anodes = Anodes {
    unit: 1,
    month: 7,
    metal: 1_234,
    net_use: 431,
    impurities: [201, 52, 16],
};

/// The same, but with anodes in the place of fuel, one month of the plain unit three
/// times and one of the wet unit, whose hour has the number of that month.
pub fn small_book_with_anodes() -> Draft {
    let mut draft = small_book();
    let of_wet_unit = Anodes { unit: 2, ..ANODES };
    let of_more_metal = Anodes {
        metal: 1_235,
        ..ANODES
    };
    let mut hour = draft.records[3];
    put(&mut hour, NUMBER_PLACE, &ANODES.month.to_le_bytes());
    draft.records = vec![
        of_more_metal.line(),
        ANODES.line(),
        of_wet_unit.line(),
        ANODES.line(),
        hour,
    ];
    draft
}

/// 70,000 m3 x 748,663 mg/kg x 16,043 g/kmol is an odd number of times 752, and by 24,064
/// each of these is 114.5 µg of CO2.
const ANALYSED: Analysed = Analysed {
    unit: 1,
    fuel: 1,
    month: 7,
    amount: 70_000,
    heat: None,
    heat_is_low: false,
    carbon: 748_663,
    weight: 16_043,
};

/// The same, but with analysed gas in the place of fuel: natural gas of which a low heat
/// value is known, another gas, and natural gas burnt in the wet unit, whose hour has
/// the number of its month. All three fuels have a molar volume, a liquid too.
pub fn small_book_with_analysed_gas() -> Draft {
    let with_low_heat = Analysed {
        heat: Some(35_050),
        heat_is_low: true,
        ..ANALYSED
    };
    let of_other_gas = Analysed {
        fuel: 2,
        ..ANALYSED
    };
    let of_wet_unit = Analysed {
        unit: 2,
        heat: Some(39_000),
        ..ANALYSED
    };
    let fuels = [
        fuel(1, 3, 1, 24_064),
        fuel(2, 3, 0, 23_685),
        fuel(3, 2, 2, 20_000),
    ];
    let mut draft = small_book();
    let gases = [with_low_heat, of_other_gas, of_wet_unit];
    for (record, gas) in draft.records.iter_mut().zip(gases) {
        *record = gas.line();
    }
    put(
        &mut draft.records[3],
        NUMBER_PLACE,
        &ANALYSED.month.to_le_bytes(),
    );
    draft.fuels = fuels.map(|fuel| fuel.line()).to_vec();
    draft
}
