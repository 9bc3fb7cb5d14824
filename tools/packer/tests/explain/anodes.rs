//! Anodes with a reason each, in rows as those of accounts.rs.

/// Of several faults the one told is the first in the order of the reasons. No unit's monitor and
/// no fuel matters to anodes.
pub const ANODES: &str = "
1 raw 040101000000040040420F00A40100007D002800000000000000000000000000
  its form is wrong: byte 1 of the line has a bit that must be 0
  FORM
1 raw 040001000100040040420F00A40100007D002800000000000000000000000000
  its form is wrong: it names fuel 1, and anodes have none
  FORM
1 raw 040001000001040040420F00A40100007D002800000000000000000000000000
  its form is wrong: it names fuel 256, and anodes have none
  FORM
1 raw 040001000000040040420F00A40100007D002800000001000000000000000000
  its form is wrong: byte 22 of the line has a bit that must be 0
  FORM
1 raw 040009000000FFFFFFFFFFFFFFFFFFFFFFFFFFFFFFFF00000000000000000001
  its form is wrong: byte 31 of the line has a bit that must be 0
  FORM
1 raw 050001000000040040420F00A40100007D002800000000000000000000000000
  its form is wrong: kind 5 is KINDS
  FORM
2 anodes unit 9 month 4 metal 1 use 1 sulphur 0.00 ash 0.00 other 0.00
  its unit isn't listed: unit 9 is none of 1, 2, 3, 4
  list unit 9, or correct the record's unit
2 anodes unit 0 month 0 metal 1 use 1001 sulphur 60.00 ash 60.00 other 60.00
  its unit isn't listed: unit 0 is none of 1, 2, 3, 4
  correct the record's unit; unit numbers start at 1
4 anodes unit 1 month 0 metal 1 use 1 sulphur 0.00 ash 0.00 other 0.00
  RANGE: month 0 isn't from 1 to 12
  correct the month
4 anodes unit 2 month 13 metal 1 use 1 sulphur 0.00 ash 0.00 other 0.00
  RANGE: month 13 isn't from 1 to 12
  correct the month
4 anodes unit 3 month 1 metal 100000001 use 1 sulphur 0.00 ash 0.00 other 0.00
  RANGE: metal 100000001 isn't from 0 to 100000000
  correct the metal
4 anodes unit 4 month 1 metal 1 use 1001 sulphur 0.00 ash 0.00 other 0.00
  RANGE: use 1001 isn't from 0 to 1000
  correct the use
4 anodes unit 1 month 1 metal 1 use 1 sulphur 100.01 ash 0.00 other 0.00
  RANGE: sulphur 100.01 isn't from 0.00 to 100.00
  correct the sulphur
4 anodes unit 1 month 1 metal 1 use 1 sulphur 0.00 ash 100.01 other 0.00
  RANGE: ash 100.01 isn't from 0.00 to 100.00
  correct the ash
4 anodes unit 1 month 1 metal 1 use 1 sulphur 0.00 ash 0.00 other 655.35
  RANGE: other 655.35 isn't from 0.00 to 100.00
  correct the other
4 anodes unit 1 month 1 metal 1 use 1 sulphur 100.00 ash 0.01 other 0.00
  RANGE: sulphur 100.00, ash 0.01 and other 0.00 add up to 100.01, more than 100.00
  correct the sulphur, ash or other
4 anodes unit 1 month 1 metal 1 use 1 sulphur 33.34 ash 33.34 other 33.33
  RANGE: sulphur 33.34, ash 33.34 and other 33.33 add up to 100.01, more than 100.00
  correct the sulphur, ash or other
4 anodes unit 1 month 1 metal 1 use 1 sulphur 100.00 ash 100.00 other 100.00
  RANGE: sulphur 100.00, ash 100.00 and other 100.00 add up to 300.00, more than 100.00
  correct the sulphur, ash or other
4 anodes unit 3 month 99 metal 1 use 1 sulphur 50.00 ash 50.00 other 50.00
  RANGE: month 99 isn't from 1 to 12; sulphur 50.00, ash 50.00 and other 50.00 add up to 150.00, \
    more than 100.00
  correct the month; correct the sulphur, ash or other
4 anodes unit 4 month 0 metal 4294967295 use 4294967295 sulphur 655.35 ash 655.35 other 655.35
  RANGE: month 0 isn't from 1 to 12; metal 4294967295 isn't from 0 to 100000000; use 4294967295 \
    isn't from 0 to 1000; sulphur 655.35 isn't from 0.00 to 100.00; ash 655.35 isn't from 0.00 \
    to 100.00; other 655.35 isn't from 0.00 to 100.00
  correct the month, metal, use, sulphur, ash, other
";

/// Reasons that nothing in the record bears out, with general words.
pub const UNSUPPORTED_ANODES: &str = "
1 anodes unit 1 month 1 metal 1 use 1 sulphur 0.00 ash 0.00 other 0.00
  its form is wrong
  FORM
2 anodes unit 1 month 1 metal 1 use 1 sulphur 0.00 ash 0.00 other 0.00
  its unit isn't listed
  list it, or correct its number
3 anodes unit 1 month 1 metal 1 use 1 sulphur 0.00 ash 0.00 other 0.00
  its fuel isn't listed
  list it, or correct its number
4 anodes unit 1 month 1 metal 0 use 0 sulphur 0.00 ash 0.00 other 0.00
  RANGE
  ANY
4 anodes unit 3 month 12 metal 100000000 use 1000 sulphur 100.00 ash 0.00 other 0.00
  RANGE
  ANY
4 anodes unit 4 month 12 metal 100000000 use 1000 sulphur 0.00 ash 100.00 other 0.00
  RANGE
  ANY
4 anodes unit 1 month 1 metal 1 use 1 sulphur 33.33 ash 33.33 other 33.34
  RANGE
  ANY
5 anodes unit 1 month 1 metal 1 use 1 sulphur 0.00 ash 0.00 other 0.00
  an hour of a unit without a monitor
  correct the hour's unit, or the unit's line
6 anodes unit 2 month 1 metal 1 use 1 sulphur 0.00 ash 0.00 other 0.00
  NONE
  give the measured carbon, or correct the unit's rating
7 anodes unit 3 month 1 metal 1 use 1 sulphur 0.00 ash 0.00 other 0.00
  there is no heat in use
  give the measured heat, or give the fuel a default heat
8 anodes unit 1 month 1 metal 1 use 1 sulphur 0.00 ash 0.00 other 0.00
  it repeats an earlier record
  REPEAT
";
