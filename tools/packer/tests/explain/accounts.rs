//! Records with a reason each, what is said of them, and what is to be done: three lines a record.

use crate::anodes::{ANODES, UNSUPPORTED_ANODES};
use crate::gas::{GAS, UNSUPPORTED_GAS};
use crate::hours::{FAULTY_HOURS, HOURS};
use crate::repeats::GENERAL_REMEDY;
use crate::unsupported::UNSUPPORTED;

/// Unit 1 is at the limit of default heats, 2 is past it, 3 has a monitor, and 4 a dry one. Fuels 1
/// and 2 are of classes whose measured heat does for every unit; 4 to 6 have no default heat; 4, 6
/// and 7 have no molar volume.
pub const LISTS: &str = "\
year 2010
unit 1 rating 250
unit 2 rating 250.1
unit 3 rating 410.5 monitor
unit 4 rating 410.5 monitor dry
fuel 1 gas natural-gas heat 38000 co2 50000 ch4 900 n2o 90 molar-volume 24060
fuel 2 liquid distillate-oil heat 38000 co2 70000 ch4 2800 n2o 570 molar-volume 24060
fuel 3 gas other heat 38000 co2 50000 ch4 900 n2o 90 molar-volume 23670
fuel 4 solid pure-biomass co2 95000 ch4 30000 n2o 4000
fuel 5 gas natural-gas co2 50000 ch4 900 n2o 90 molar-volume 27000
fuel 6 liquid other co2 70000 ch4 2800 n2o 570
fuel 7 gas other heat 38000 co2 50000 ch4 900 n2o 90
";

const FORMS: &str = "
1 raw 0000000000000000000000000000000000000000000000000000000000000000
  its form is wrong: kind 0 is KINDS
  FORM
1 raw FF00000000000000000000000000000000000000000000000000000000000000
  its form is wrong: kind 255 is KINDS
  FORM
1 raw 0108010001000600E80300000000000000000000000000000000000000000000
  its form is wrong: byte 1 of the line has a bit that must be 0
  FORM
1 raw 010C010001000600E80300000000000000000000000000000000000000000000
  its form is wrong: byte 1 of the line has a bit that must be 0
  FORM
1 raw 0104010001000600E80300000000000000000000000000000000000000000000
  its form is wrong: it has the flag of a low heat without that of a measured one
  FORM
1 raw 0106010001000600E8030000B889000000000000000000000000000000000000
  its form is wrong: it has the flag of a low heat without that of a measured one
  FORM
1 raw 0100010001000600E80300000100000000000000000000000000000000000000
  its form is wrong: it has a heat without the flag for one
  FORM
1 raw 0102010001000600E80300000000000100000000000000000000000000000000
  its form is wrong: it has a heat without the flag for one
  FORM
1 raw 0101010001000600E80300000000000000000001000000000000000000000000
  its form is wrong: it has carbon without the flag for it
  FORM
1 raw 0100010001000600E80300000000000000000000010000000000000000000000
  its form is wrong: byte 20 of the line has a bit that must be 0
  FORM
";

const LISTED: &str = "
2 delivery unit 5 fuel 1 month 1 amount 1
  its unit isn't listed: unit 5 is none of 1, 2, 3, 4
  list unit 5, or correct the record's unit
2 delivery unit 0 fuel 9 month 13 amount 1
  its unit isn't listed: unit 0 is none of 1, 2, 3, 4
  correct the record's unit; unit numbers start at 1
2 hour unit 65535 hour 1 percent 1 flow 1
  its unit isn't listed: unit 65535 is none of 1, 2, 3, 4
  list unit 65535, or correct the record's unit
3 delivery unit 1 fuel 8 month 1 amount 1
  its fuel isn't listed: fuel 8 is none of 1, 2, 3, 4, 5, 6, 7
  list fuel 8, or correct the record's fuel
3 delivery unit 1 fuel 0 month 13 amount 1
  its fuel isn't listed: fuel 0 is none of 1, 2, 3, 4, 5, 6, 7
  correct the record's fuel; fuel numbers start at 1
";

const VALUES: &str = "
4 delivery unit 1 fuel 1 month 0 amount 1
  RANGE: month 0 isn't from 1 to 12
  correct the month
4 delivery unit 1 fuel 1 month 13 amount 1
  RANGE: month 13 isn't from 1 to 12
  correct the month
4 delivery unit 1 fuel 1 month 1 amount 100000001
  RANGE: amount 100000001 isn't from 0 to 100000000
  correct the amount
4 delivery unit 1 fuel 1 month 1 amount 1 heat 0
  RANGE: heat 0 isn't from 1 to 200000
  correct the heat
4 delivery unit 1 fuel 1 month 1 amount 1 heat 200001
  RANGE: heat 200001 isn't from 1 to 200000
  correct the heat
4 delivery unit 1 fuel 1 month 1 amount 1 low-heat 0
  RANGE: low-heat 0 isn't from 1 to 180000
  correct the low-heat
4 delivery unit 1 fuel 1 month 1 amount 1 low-heat 180001
  RANGE: low-heat 180001 isn't from 1 to 180000
  correct the low-heat
4 delivery unit 1 fuel 2 month 1 amount 1 low-heat 35100
  RANGE: low-heat 35100 is for natural-gas alone, and fuel 2 is distillate-oil
  give the high value as `heat`, or correct the fuel
4 delivery unit 3 fuel 3 month 1 amount 1 low-heat 35100 carbon 1
  RANGE: low-heat 35100 is for natural-gas alone, and fuel 3 is other
  give the high value as `heat`, or correct the fuel
4 delivery unit 2 fuel 4 month 13 amount 1 low-heat 180001
  RANGE: month 13 isn't from 1 to 12; low-heat 180001 isn't from 1 to 180000; low-heat 180001 is \
    for natural-gas alone, and fuel 4 is pure-biomass
  correct the month, low-heat; give the high value as `heat`, or correct the fuel
4 delivery unit 1 fuel 3 month 1 amount 1 carbon 4000001
  RANGE: carbon 4000001 isn't from 0 to 4000000
  correct the carbon
4 delivery unit 1 fuel 2 month 1 amount 1 carbon 1000001
  RANGE: carbon 1000001 isn't from 0 to 1000000
  correct the carbon
4 delivery unit 1 fuel 4 month 1 amount 1 carbon 1000001
  RANGE: carbon 1000001 isn't from 0 to 1000000
  correct the carbon
4 delivery unit 1 fuel 1 month 99 amount 4294967295 heat 0 carbon 4294967295
  RANGE: month 99 isn't from 1 to 12; amount 4294967295 isn't from 0 to 100000000; heat 0 isn't \
    from 1 to 200000; carbon 4294967295 isn't from 0 to 4000000
  correct the month, amount, heat, carbon
";

const CHOICES: &str = "
5 hour unit 1 hour 1 percent 1 flow 1
  an hour of a unit without a monitor: unit 1 has none
  correct the hour's unit, or add `monitor` to unit 1
6 delivery unit 2 fuel 1 month 1 amount 1
  NONE: unit 2 has rating 250.1, above 250.0, where a default heat doesn't do
  give the measured heat or carbon, or correct the rating of unit 2
6 delivery unit 2 fuel 2 month 1 amount 1
  NONE: unit 2 has rating 250.1, above 250.0, where a default heat doesn't do
  give the measured heat or carbon, or correct the rating of unit 2
6 delivery unit 2 fuel 3 month 1 amount 1
  NONE: unit 2 has rating 250.1, above 250.0, where a default heat doesn't do
  give the measured carbon, or correct the rating of unit 2
6 delivery unit 2 fuel 3 month 1 amount 1 heat 1
  NONE: unit 2 has rating 250.1, above 250.0, where a measured heat does for natural-gas and \
    distillate-oil alone, and fuel 3 is other
  give the measured carbon too, or correct the rating of unit 2
6 delivery unit 1 fuel 4 month 1 amount 1
  NONE: unit 1 has rating 250.0, nothing was measured, and fuel 4 has no default heat
  give the measured heat, or give fuel 4 a default heat
6 delivery unit 2 fuel 5 month 1 amount 1
  NONE: unit 2 has rating 250.1, nothing was measured, and fuel 5 has no default heat
  give the measured heat
6 delivery unit 2 fuel 6 month 1 amount 1
  NONE: unit 2 has rating 250.1, nothing was measured, and fuel 6 has no default heat
  give the measured heat and carbon
7 delivery unit 1 fuel 4 month 1 amount 1 carbon 1
  there is no heat in use: no heat was measured, and fuel 4 has no default heat
  give the measured heat, or give fuel 4 a default heat
7 delivery unit 3 fuel 5 month 1 amount 1
  there is no heat in use: no heat was measured, and fuel 5 has no default heat
  give the measured heat, or give fuel 5 a default heat
";

/// What stands for words that many rows share.
const SHORT: [(&str, &str); 7] = [
    (
        "FORM",
        "say it as a `delivery`, a `gas-delivery`, an `hour` or `anodes`",
    ),
    (
        "KINDS",
        "none of 1, a delivery, 2, an hour, 3, a gas-delivery, and 4, anodes",
    ),
    (
        "DRY",
        "add `dry` to the `monitor` of unit 3 if its analyser dries the sample, or take the \
         moisture out",
    ),
    ("RANGE", "a value is out of range"),
    (
        "ANY",
        "correct its month, hour, amount, heat, carbon, molecular weight, reading, moisture, \
         metal, use or impurities",
    ),
    ("NONE", "no method is permitted"),
    ("REPEAT", GENERAL_REMEDY),
];

pub struct Row {
    pub reason: u8,
    pub record: &'static str,
    pub why: String,
    pub remedy: String,
}

pub fn rows() -> Vec<Row> {
    let tables = [
        FORMS,
        LISTED,
        VALUES,
        HOURS,
        FAULTY_HOURS,
        CHOICES,
        GAS,
        ANODES,
        UNSUPPORTED,
        UNSUPPORTED_GAS,
        UNSUPPORTED_ANODES,
    ];
    let lines = tables.iter().flat_map(|table| table.lines());
    let lines: Vec<&str> = lines.filter(|line| !line.is_empty()).collect();
    lines.chunks(3).map(row).collect()
}

fn row(lines: &[&'static str]) -> Row {
    let whole = |line: &str| {
        let long = |words: String, (short, long): (&str, &str)| words.replace(short, long);
        let words = line.strip_prefix("  ").unwrap().to_string();
        SHORT.into_iter().fold(words, long)
    };
    let (reason, record) = lines[0].split_once(' ').unwrap();
    Row {
        reason: reason.parse().unwrap(),
        record,
        why: whole(lines[1]),
        remedy: whole(lines[2]),
    }
}
