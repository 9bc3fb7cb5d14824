//! Hours with a reason each, in rows as those of accounts.rs.

pub const HOURS: &str = "
1 raw 0201010000000600E80300000000000000000000000000000000000000000000
  its form is wrong: byte 1 of the line has a bit that must be 0
  FORM
1 raw 0200010000010600E80300000000000000000000000000000000000000000000
  its form is wrong: byte 5 of the line has a bit that must be 0
  FORM
1 raw 0200010000000600E80300000000000000000000000000000000000000000001
  its form is wrong: byte 31 of the line has a bit that must be 0
  FORM
1 hour unit 3 hour 1 percent 1 flow 1 moisture 0.1
  its form is wrong: it has moisture 0.1, and unit 3 isn't dry
  DRY
1 hour unit 3 hour 8784 percent 100 flow 1000000000 moisture 100.0
  its form is wrong: it has moisture 100.0, and unit 3 isn't dry
  DRY
1 hour unit 2 hour 1 percent 1 flow 1 moisture 12.5
  its form is wrong: it has moisture 12.5, and unit 2 has no monitor
  correct the hour's unit, or add `monitor dry` to unit 2
4 hour unit 3 hour 0 percent 1 flow 1
  RANGE: hour 0 isn't from 1 to 8784
  correct the hour
4 hour unit 3 hour 8785 percent 1 flow 1
  RANGE: hour 8785 isn't from 1 to 8784
  correct the hour
4 hour unit 3 hour 1 percent 100.00001 flow 1
  RANGE: percent 100.00001 isn't from 0 to 100
  correct the percent
4 hour unit 3 hour 1 percent -1e-45 flow 1
  RANGE: percent -1e-45 isn't from 0 to 100
  correct the percent
4 hour unit 3 hour 1 percent bits 7FC00000 flow 1
  RANGE: percent bits 7FC00000, no number, isn't from 0 to 100
  correct the percent
4 hour unit 3 hour 1 percent 1 flow 1000000060
  RANGE: flow 1000000060 isn't from 0 to 1000000000
  correct the flow
4 hour unit 3 hour 1 percent 1 flow -1
  RANGE: flow -1 isn't from 0 to 1000000000
  correct the flow
4 hour unit 3 hour 1 percent 1 flow bits 7F800000
  RANGE: flow bits 7F800000, infinite, isn't from 0 to 1000000000
  correct the flow
4 hour unit 3 hour 1 percent bits FF800000 flow bits FF800001
  RANGE: percent bits FF800000, infinite, isn't from 0 to 100; flow bits FF800001, no number, \
    isn't from 0 to 1000000000
  correct the percent, flow
4 hour unit 4 hour 1 percent 1 flow 1 moisture 100.1
  RANGE: moisture 100.1 isn't from 0.0 to 100.0
  correct the moisture
4 hour unit 4 hour 1 percent 1 flow 1 moisture 6553.5
  RANGE: moisture 6553.5 isn't from 0.0 to 100.0
  correct the moisture
4 hour unit 4 hour 8785 percent 1 flow 1 moisture 100.0
  RANGE: hour 8785 isn't from 1 to 8784
  correct the hour
";

/// Of several faults the one told is the first in the order of the reasons, which has the
/// moisture of a unit that isn't dry behind the unlisted units and before the ranges.
pub const FAULTY_HOURS: &str = "
1 raw 0201010000000000FFFFFFFFFFFFFFFF7D000000000000000000000000000000
  its form is wrong: byte 1 of the line has a bit that must be 0
  FORM
1 raw 0200030001000000FFFFFFFFFFFFFFFF7D000000000000000000000000000000
  its form is wrong: byte 4 of the line has a bit that must be 0
  FORM
1 raw 0200030000000000FFFFFFFFFFFFFFFFFFFF0100000000000000000000000000
  its form is wrong: byte 18 of the line has a bit that must be 0
  FORM
1 raw 0200090000000000FFFFFFFFFFFFFFFF7D000000000000000000000000000001
  its form is wrong: byte 31 of the line has a bit that must be 0
  FORM
2 hour unit 9 hour 0 percent -1 flow -1 moisture 6553.5
  its unit isn't listed: unit 9 is none of 1, 2, 3, 4
  list unit 9, or correct the record's unit
1 hour unit 3 hour 0 percent -1 flow -1 moisture 6553.5
  its form is wrong: it has moisture 6553.5, and unit 3 isn't dry
  DRY
1 hour unit 1 hour 0 percent -1 flow -1 moisture 100.1
  its form is wrong: it has moisture 100.1, and unit 1 has no monitor
  correct the hour's unit, or add `monitor dry` to unit 1
4 hour unit 4 hour 0 percent -1 flow -2 moisture 100.1
  RANGE: hour 0 isn't from 1 to 8784; percent -1 isn't from 0 to 100; flow -2 isn't from 0 to \
    1000000000; moisture 100.1 isn't from 0.0 to 100.0
  correct the hour, percent, flow, moisture
4 hour unit 1 hour 0 percent 1 flow 1
  RANGE: hour 0 isn't from 1 to 8784
  correct the hour
";
