//! Texts that are refused: the bad line, and words that the message must have.

/// What a text starts with before the year is said.
pub const NO_YEAR: &str = "# a comment\n\n\n";

/// A sound start, of as many lines.
pub const SOUND: &str = "year 2010\nunit 5 rating 1\nfuel 5 gas other co2 1 ch4 0 n2o 0\n";

pub const BAD_AFTER_NO_YEAR: &str = "
unit 1 rating 1.0 => the year comes first, before `unit`
year 1999 => year 1999 isn't from 2000 to 2099
year 2100 => year 2100 isn't from 2000 to 2099
year 67546 => year 67546 is too large
year => `year` is followed by nothing
year twenty => plain digits, not by `twenty`
year +2010 => plain digits, not by `+2010`
year 2010 2011 => `2011` is one word too many
year 1999 warming second => year 1999 isn't from 2000 to 2099
year 2010 warming => the line ends without one of first, second
year 2010 warming third => `third` is none of first, second
year 2010 warming Second => `Second` is none of first, second
year 2010 warming 1 => `1` is none of first, second
year 2010 warming warming => `warming` is none of first, second
year 2010 warming second second => `second` is one word too many
year 2010 warming first warming second => `warming` is one word too many
year 2010 second => `second` is one word too many
year 2010 Warming second => `Warming` is one word too many
year warming second 2010 => plain digits, not by `warming`
warming second year 2010 => the year comes first, before `warming`
";

pub const BAD_AFTER_SOUND: &str = "
year 2010 => the year is said a second time
year 2010 warming second => the year is said a second time
warming second => no line starts with `warming`
unti 6 rating 1.0 => no line starts with `unti`
Unit 6 rating 1.0 => no line starts with `Unit`

unit 0 rating 1.0 => unit numbers start at 1
unit 5 rating 1.0 => unit 5 comes after unit 5; unit numbers rise
unit 3 rating 1.0 => unit 3 comes after unit 5; unit numbers rise
unit 65536 rating 1.0 => unit 65536 is too large
unit => `unit` is followed by nothing
unit 6 => `rating` is missing
unit 6 rating => `rating` is followed by nothing
unit 6 monitor => `rating` should stand where `monitor` does
unit 6 rating 0 => unit 6 has rating 0.0; a rating is from 0.1 to 10000.0
unit 6 rating 10000.1 => unit 6 has rating 10000.1
unit 6 rating 429496729.6 => 429496729.6 is too large to write down; the most is 429496729.5
unit 6 rating 250.05 => one decimal or none, not by `250.05`
unit 6 rating 250. => one decimal or none, not by `250.`
unit 6 rating .5 => one decimal or none, not by `.5`
unit 6 rating -1.0 => one decimal or none, not by `-1.0`
unit 6 rating 1.0 monitr => `monitr` is one word too many
unit 6 rating 1.0 warming second => `warming` is one word too many
unit 6 rating 1.0 monitor 2 => `2` is one word too many
unit 6 rating 1.0 dry => no `monitor` before it; an analyser of dry gas is said by `monitor dry`
unit 6 rating 1.0 dry monitor => `dry` has no `monitor` before it
unit 6 rating dry => one decimal or none, not by `dry`
unit 6 dry rating 1.0 => `rating` should stand where `dry` does
unit 6 rating 1.0 monitor dry dry => `dry` is one word too many
unit 6 rating 1.0 monitor dry monitor => `monitor` is one word too many
unit 6 rating 1.0 monitor Dry => `Dry` is one word too many
unit 6 rating 1.0 monitor wet => `wet` is one word too many
unit 6 rating 1.0 monitor moisture 12.5 => `moisture` is one word too many

fuel 0 gas other co2 1 ch4 0 n2o 0 => fuel numbers start at 1
fuel 5 gas other co2 1 ch4 0 n2o 0 => fuel 5 comes after fuel 5; fuel numbers rise
fuel 4 gas other co2 1 ch4 0 n2o 0 => fuel 4 comes after fuel 5; fuel numbers rise
fuel 65536 gas other co2 1 ch4 0 n2o 0 => fuel 65536 is too large
fuel 6 plasma other co2 1 ch4 0 n2o 0 => `plasma` is none of solid, liquid, gas
fuel 6 gas coal co2 1 ch4 0 n2o 0 => `coal` is none of other, natural-gas, distillate-oil, pure-
fuel 6 gas => the line ends without one of other, natural-gas
fuel 6 liquid natural-gas co2 1 ch4 0 n2o 0 => can't be natural-gas, since it is liquid
fuel 6 solid natural-gas co2 1 ch4 0 n2o 0 => can't be natural-gas, since it is solid
fuel 6 solid distillate-oil co2 1 ch4 0 n2o 0 => can't be distillate-oil, since it is solid
fuel 6 gas distillate-oil co2 1 ch4 0 n2o 0 => can't be distillate-oil, since it is gas
fuel 6 liquid pure-biomass co2 1 ch4 0 n2o 0 => can't be pure-biomass, since it is liquid
fuel 6 gas pure-biomass co2 1 ch4 0 n2o 0 => can't be pure-biomass, since it is gas
fuel 6 gas other heat 200001 co2 1 ch4 0 n2o 0 => heat 200001; its heat is from 0 to 200000
fuel 6 gas other co2 0 ch4 0 n2o 0 => fuel 6 has co2 0; its co2 is from 1 to 200000
fuel 6 gas other co2 200001 ch4 0 n2o 0 => fuel 6 has co2 200001
fuel 6 gas other co2 1 ch4 200001 n2o 0 => ch4 200001; its ch4 is from 0 to 200000
fuel 6 gas other co2 1 ch4 0 n2o 200001 => n2o 200001; its n2o is from 0 to 200000
fuel 6 gas other co2 4294967296 ch4 0 n2o 0 => co2 4294967296 is too large
fuel 6 gas other ch4 0 co2 1 n2o 0 => `co2` should stand where `ch4` does
fuel 6 gas natural-gas low-heat 1 co2 1 ch4 0 n2o 0 => `co2` should stand where `low-heat` does
fuel 6 gas other co2 1 ch4 0 => `n2o` is missing
fuel 6 gas other co2 1 ch4 0 n2o 0 0 => `0` is one word too many
fuel 6 gas other co2 1 ch4 0 n2o 0 molar-volume => `molar-volume` is followed by nothing
fuel 6 gas other co2 1 ch4 0 n2o 0 molar-volume 1 => molar-volume is from 20000 to 27000
fuel 6 gas other co2 1 ch4 0 n2o 0 molar-volume 19999 => fuel 6 has molar-volume 19999; its
fuel 6 liquid other co2 1 ch4 0 n2o 0 molar-volume 27001 => fuel 6 has molar-volume 27001
fuel 6 solid other co2 1 ch4 0 n2o 0 molar-volume 4294967295 => has molar-volume 4294967295
fuel 6 gas other co2 1 ch4 0 n2o 0 molar-volume 4294967296 => 4294967296 is too large
fuel 6 gas other co2 1 ch4 0 n2o 0 molar-volume 24.06 => plain digits, not by `24.06`
fuel 6 gas other co2 1 ch4 0 n2o 0 molar-volume 24,060 => plain digits, not by `24,060`
fuel 6 gas other co2 1 ch4 0 n2o 0 molar volume 24060 => `molar` is one word too many
fuel 6 gas other co2 1 ch4 0 n2o 0 molar-volume 24060 24060 => `24060` is one word too many
fuel 6 gas other co2 1 ch4 0 molar-volume 24060 n2o 0 => `n2o` should stand where `molar-volume`
fuel 6 gas other molar-volume 24060 co2 1 ch4 0 n2o 0 => `co2` should stand where `molar-volume`

delivery fuel 1 unit 1 month 1 amount 1 => `unit` should stand where `fuel` does
delivery unit 65536 fuel 1 month 1 amount 1 => unit 65536 is too large
delivery unit 1 fuel 65536 month 1 amount 1 => fuel 65536 is too large
delivery unit 1 fuel 1 month 65536 amount 1 => month 65536 is too large
delivery unit 1 fuel 1 month 1 amount 4294967296 => amount 4294967296 is too large
delivery unit 1 fuel 1 month 1 amount 1,000 => plain digits, not by `1,000`
delivery unit 1 fuel 1 month 1 amount -1 => plain digits, not by `-1`
delivery unit 1 fuel 1 month 1 => `amount` is missing
delivery unit 1 fuel 1 month 1 amount 1 heat => `heat` is followed by nothing
delivery unit 1 fuel 1 month 1 amount 1 heat 4294967296 => heat 4294967296 is too large
delivery unit 1 fuel 1 month 1 amount 1 carbon 2 heat 3 => `heat` is one word too many
delivery unit 1 fuel 1 month 1 amount 1 low-heat => `low-heat` is followed by nothing
delivery unit 1 fuel 1 month 1 amount 1 low-heat 4294967296 => low-heat 4294967296 is too large
delivery unit 1 fuel 1 month 1 amount 1 low-heat 35.1 => plain digits, not by `35.1`
delivery unit 1 fuel 1 month 1 amount 1 low-heat 2 heat 3 => `heat` is one word too many
delivery unit 1 fuel 1 month 1 amount 1 heat 3 low-heat 2 => `low-heat` is one word too many
delivery unit 1 fuel 1 month 1 amount 1 carbon 2 low-heat 3 => `low-heat` is one word too many
delivery unit 1 fuel 1 month 1 amount 1 low heat 3 => `low` is one word too many
delivery unit 1 fuel 1 month 1 amount 1 moisture 3 => `moisture` is one word too many

gas-delivery => `unit` is missing
gas-delivery unit 65536 fuel 1 month 1 amount 1 carbon 1 molecular-weight 1 => unit 65536 is too
gas-delivery unit 1 month 1 amount 1 carbon 1 molecular-weight 1 => `fuel` should stand where
gas-delivery unit 1 fuel 65536 month 1 amount 1 carbon 1 molecular-weight 1 => fuel 65536 is too
gas-delivery unit 1 fuel 1 month 65536 amount 1 carbon 1 molecular-weight 1 => month 65536 is too
gas-delivery unit 1 fuel 1 month 1 carbon 1 molecular-weight 1 => `amount` should stand where
gas-delivery unit 1 fuel 1 month 1 amount 4294967296 carbon 1 molecular-weight 1 => too large
gas-delivery unit 1 fuel 1 month 1 amount 1 => `carbon` is missing
gas-delivery unit 1 fuel 1 month 1 amount 1 molecular-weight 1 => `carbon` should stand where
gas-delivery unit 1 fuel 1 month 1 amount 1 heat 1 carbon 1 molecular-weight 1 => where `heat` does
gas-delivery unit 1 fuel 1 month 1 amount 1 carbon 4294967296 molecular-weight 1 => carbon 42949672
gas-delivery unit 1 fuel 1 month 1 amount 1 carbon 0.7486 molecular-weight 1 => not by `0.7486`
gas-delivery unit 1 fuel 1 month 1 amount 1 carbon 1 => `molecular-weight` is missing
gas-delivery unit 1 fuel 1 month 1 amount 1 carbon 1 heat 1 molecular-weight 1 => where `heat` does
gas-delivery unit 1 fuel 1 month 1 amount 1 carbon 1 molecular weight 1 => where `molecular` does
gas-delivery unit 1 fuel 1 month 1 amount 1 carbon 1 molecular-weight => is followed by nothing
gas-delivery unit 1 fuel 1 month 1 amount 1 carbon 1 molecular-weight 16.04 => not by `16.04`
gas-delivery unit 1 fuel 1 month 1 amount 1 carbon 1 molecular-weight -1 => digits, not by `-1`
gas-delivery unit 1 fuel 1 month 1 amount 1 carbon 1 molecular-weight 4294967296 => is too large
gas-delivery unit 1 fuel 1 month 1 amount 1 carbon 1 molecular-weight 1 heat => followed by nothing
gas-delivery unit 1 fuel 1 month 1 amount 1 carbon 1 molecular-weight 1 heat 1 low-heat 1 => `low-h
gas-delivery unit 1 fuel 1 month 1 amount 1 carbon 1 molecular-weight 1 low-heat 4294967296 => too
gas-delivery unit 1 fuel 1 month 1 amount 1 carbon 1 molecular-weight 1 molar-volume 24060 => `mola
gas-delivery unit 1 fuel 1 month 1 amount 1 carbon 1 molecular-weight 1 1 => `1` is one word too
delivery unit 1 fuel 1 month 1 amount 1 carbon 1 molecular-weight 1 => `molecular-weight` is one
gas unit 1 fuel 1 month 1 amount 1 carbon 1 molecular-weight 1 => delivery, gas-delivery, hour

hour unit 65536 hour 1 percent 1 flow 1 => unit 65536 is too large
hour unit 1 hour 65536 percent 1 flow 1 => hour 65536 is too large
hour unit 1 hour 1 flow 1 percent 1 => `percent` should stand where `flow` does
hour unit 1 hour 1 percent 1 => `flow` is missing
hour unit 1 hour 1 percent nan flow 1 => `nan` is no decimal number
hour unit 1 hour 1 percent inf flow 1 => `inf` is no decimal number
hour unit 1 hour 1 percent 1e39 flow 1 => 1e39 is too large for a single
hour unit 1 hour 1 percent -1e39 flow 1 => -1e39 is too large for a single
hour unit 1 hour 1 percent 1e-60 flow 1 => 1e-60 is too close to 0
hour unit 1 hour 1 percent -1e-60 flow 1 => -1e-60 is too close to 0
hour unit 1 hour 1 percent -0.0 flow 1 => `bits 80000000` is minus zero
hour unit 1 hour 1 percent 1 flow bits => `bits` is followed by nothing
hour unit 1 hour 1 percent 1 flow bits 7FC0000 => 8 hex digits, not by `7FC0000`
hour unit 1 hour 1 percent 1 flow bits 07FC00000 => 8 hex digits, not by `07FC00000`
hour unit 1 hour 1 percent 1 flow bits +7FC0000 => 8 hex digits, not by `+7FC0000`
hour unit 1 hour 1 percent 1 flow bits 7FC0000G => 8 hex digits, not by `7FC0000G`
hour unit 1 hour 1 percent 1 flow 1 2 => `2` is one word too many
hour unit 1 hour 1 percent 1 flow 1 dry => `dry` is one word too many
hour unit 1 hour 1 percent 1 flow 1 moisture => `moisture` is followed by nothing
hour unit 1 hour 1 percent 1 flow 1 moisture 6553.6 => too large to write down; the most is 6553.5
hour unit 1 hour 1 percent 1 flow 1 moisture 6554 => moisture 6554 is too large
hour unit 1 hour 1 percent 1 flow 1 moisture 12.55 => one decimal or none, not by `12.55`
hour unit 1 hour 1 percent 1 flow 1 moisture 12. => one decimal or none, not by `12.`
hour unit 1 hour 1 percent 1 flow 1 moisture .5 => one decimal or none, not by `.5`
hour unit 1 hour 1 percent 1 flow 1 moisture 12,5 => one decimal or none, not by `12,5`
hour unit 1 hour 1 percent 1 flow 1 moisture 12.5% => one decimal or none, not by `12.5%`
hour unit 1 hour 1 percent 1 flow 1 moisture -1 => one decimal or none, not by `-1`
hour unit 1 hour 1 percent 1 flow 1 moisture +1 => one decimal or none, not by `+1`
hour unit 1 hour 1 percent 1 flow 1 moisture 1e1 => one decimal or none, not by `1e1`
hour unit 1 hour 1 percent 1 flow 1 moisture bits 0000007D => one decimal or none, not by `bits`
hour unit 1 hour 1 percent 1 flow 1 moisture 1 2 => `2` is one word too many
hour unit 1 hour 1 percent 1 flow 1 moisture 1 moisture 1 => `moisture` is one word too many
hour unit 1 hour 1 percent 1 moisture 1 flow 1 => `flow` should stand where `moisture` does

anodes => `unit` is missing
anodes month 1 metal 1 use 1 sulphur 1 ash 1 other 1 => `unit` should stand where `month` does
anodes unit 65536 month 1 metal 1 use 1 sulphur 1 ash 1 other 1 => unit 65536 is too large
anodes unit 1 fuel 1 month 1 metal 1 use 1 sulphur 1 ash 1 other 1 => `month` should stand where
anodes unit 1 month 65536 metal 1 use 1 sulphur 1 ash 1 other 1 => month 65536 is too large
anodes unit 1 month 1 amount 1 use 1 sulphur 1 ash 1 other 1 => `metal` should stand where `amount`
anodes unit 1 month 1 metal 4294967296 use 1 sulphur 1 ash 1 other 1 => 4294967296 is too large
anodes unit 1 month 1 metal 1.5 use 1 sulphur 1 ash 1 other 1 => plain digits, not by `1.5`
anodes unit 1 month 1 metal 1 sulphur 1 ash 1 other 1 => `use` should stand where `sulphur` does
anodes unit 1 month 1 metal 1 use 4294967296 sulphur 1 ash 1 other 1 => use 4294967296 is too large
anodes unit 1 month 1 metal 1 use -1 sulphur 1 ash 1 other 1 => plain digits, not by `-1`
anodes unit 1 month 1 metal 1 use 1 ash 1 other 1 => `sulphur` should stand where `ash` does
anodes unit 1 month 1 metal 1 use 1 ash 1 sulphur 1 other 1 => `sulphur` should stand where `ash`
anodes unit 1 month 1 metal 1 use 1 sulfur 1 ash 1 other 1 => `sulphur` should stand where `sulfur`
anodes unit 1 month 1 metal 1 use 1 sulphur 1 other 1 => `ash` should stand where `other` does
anodes unit 1 month 1 metal 1 use 1 sulphur 1 ash 1 => `other` is missing
anodes unit 1 month 1 metal 1 use 1 sulphur 1 ash 1 other => `other` is followed by nothing
anodes unit 1 month 1 metal 1 use 1 sulphur 655.36 ash 1 other 1 => the most is 655.35
anodes unit 1 month 1 metal 1 use 1 sulphur 1 ash 656 other 1 => ash 656 is too large
anodes unit 1 month 1 metal 1 use 1 sulphur 1 ash 1 other 99999999999 => is too large
anodes unit 1 month 1 metal 1 use 1 sulphur 1.255 ash 1 other 1 => two decimals at most, not
anodes unit 1 month 1 metal 1 use 1 sulphur 1.250 ash 1 other 1 => two decimals at most, not
anodes unit 1 month 1 metal 1 use 1 sulphur 1. ash 1 other 1 => two decimals at most, not by `1.`
anodes unit 1 month 1 metal 1 use 1 sulphur .25 ash 1 other 1 => decimals at most, not by `.25`
anodes unit 1 month 1 metal 1 use 1 sulphur 1,25 ash 1 other 1 => decimals at most, not by `1,25`
anodes unit 1 month 1 metal 1 use 1 sulphur 1.2.5 ash 1 other 1 => two decimals at most, not by
anodes unit 1 month 1 metal 1 use 1 sulphur 1.25% ash 1 other 1 => two decimals at most, not by
anodes unit 1 month 1 metal 1 use 1 sulphur -1 ash 1 other 1 => two decimals at most, not by `-1`
anodes unit 1 month 1 metal 1 use 1 sulphur +1 ash 1 other 1 => two decimals at most, not by `+1`
anodes unit 1 month 1 metal 1 use 1 sulphur 1e1 ash 1 other 1 => two decimals at most, not by `1e1`
anodes unit 1 month 1 metal 1 use 1 sulphur 1 ash 1 other 1 2 => `2` is one word too many
anodes unit 1 month 1 metal 1 use 1 sulphur 1 ash 1 other 1 other 1 => `other` is one word too
anode unit 1 month 1 metal 1 use 1 sulphur 1 ash 1 other 1 => gas-delivery, hour, anodes or raw

raw => `raw` is followed by nothing
raw 000000000000000000000000000000000000000000000000000000000000000 => followed by 64 hex digits
raw 00000000000000000000000000000000000000000000000000000000000000000 => followed by 64 hex digits
raw 000000000000000000000000000000000000000000000000000000000000000G => followed by 64 hex digits
raw 0000000000000000000000000000000000000000000000000000000000000000 0 => `0` is one word too many
";

/// Gives the bad lines of a table, each with the words of its message.
pub fn rows(table: &'static str) -> impl Iterator<Item = (&'static str, &'static str)> {
    let rows = table.lines().filter(|row| !row.is_empty());
    rows.map(|row| row.split_once(" => ").unwrap())
}

/// Gives texts whose last line is one too many: the text, the line's number, words of the message.
pub fn one_line_too_many() -> [(String, usize, &'static str); 3] {
    let numbered = |line: fn(usize) -> String, count| {
        let lines: Vec<String> = (1..=count).map(line).collect();
        format!("year 2010\n{}\n", lines.join("\n"))
    };
    let unit = |number| format!("unit {number} rating 1");
    let fuel = |number| format!("fuel {number} gas other co2 1 ch4 0 n2o 0");
    let hour = |number| format!("hour unit 1 hour {} percent 1 flow 1", number % 8785);
    [
        (numbered(unit, 65), 66, "at most 64 unit lines"),
        (numbered(fuel, 65), 66, "at most 64 fuel lines"),
        (
            numbered(hour, 131_072),
            131_073,
            "the book is full: its 4194304 bytes hold 131071",
        ),
    ]
}
