//! Reasons that nothing in the record bears out: they are told, with general words. Most records
//! stand at the ends of every range.

pub const UNSUPPORTED: &str = "
1 delivery unit 1 fuel 1 month 1 amount 1
  its form is wrong
  FORM
1 hour unit 3 hour 1 percent 1 flow 1
  its form is wrong
  FORM
1 hour unit 4 hour 1 percent 1 flow 1 moisture 6553.5
  its form is wrong
  FORM
1 hour unit 9 hour 1 percent 1 flow 1 moisture 12.5
  its form is wrong
  FORM
2 delivery unit 1 fuel 1 month 1 amount 1
  its unit isn't listed
  list it, or correct its number
2 raw 0000000000000000000000000000000000000000000000000000000000000000
  its unit isn't listed
  list it, or correct its number
3 delivery unit 1 fuel 1 month 1 amount 1
  its fuel isn't listed
  list it, or correct its number
3 hour unit 3 hour 1 percent 1 flow 1
  its fuel isn't listed
  list it, or correct its number
4 delivery unit 1 fuel 1 month 1 amount 0 heat 1 carbon 0
  RANGE
  ANY
4 delivery unit 1 fuel 1 month 12 amount 100000000 heat 200000 carbon 4000000
  RANGE
  ANY
4 delivery unit 1 fuel 2 month 12 amount 100000000 heat 200000 carbon 1000000
  RANGE
  ANY
4 delivery unit 1 fuel 1 month 1 amount 1 low-heat 1
  RANGE
  ANY
4 delivery unit 1 fuel 5 month 12 amount 100000000 low-heat 180000 carbon 4000000
  RANGE
  ANY
4 hour unit 3 hour 1 percent 0 flow 0
  RANGE
  ANY
4 hour unit 3 hour 8784 percent 100 flow 1000000000
  RANGE
  ANY
4 hour unit 4 hour 1 percent 0 flow 0 moisture 0.1
  RANGE
  ANY
4 hour unit 4 hour 8784 percent 100 flow 1000000000 moisture 100.0
  RANGE
  ANY
4 hour unit 3 hour 1 percent bits 80000000 flow bits 80000000
  RANGE
  ANY
4 raw 0000000000000000000000000000000000000000000000000000000000000000
  RANGE
  ANY
5 hour unit 3 hour 1 percent 1 flow 1
  an hour of a unit without a monitor
  correct the hour's unit, or the unit's line
5 hour unit 4 hour 1 percent 1 flow 1 moisture 12.5
  an hour of a unit without a monitor
  correct the hour's unit, or the unit's line
5 delivery unit 1 fuel 1 month 1 amount 1
  an hour of a unit without a monitor
  correct the hour's unit, or the unit's line
6 delivery unit 1 fuel 1 month 1 amount 1
  NONE
  give the measured carbon, or correct the unit's rating
6 delivery unit 1 fuel 4 month 1 amount 1 heat 1
  NONE
  give the measured carbon, or correct the unit's rating
6 delivery unit 2 fuel 2 month 1 amount 1 heat 1
  NONE
  give the measured carbon, or correct the unit's rating
6 delivery unit 2 fuel 5 month 1 amount 1 low-heat 1
  NONE
  give the measured carbon, or correct the unit's rating
6 delivery unit 2 fuel 3 month 1 amount 1 carbon 1
  NONE
  give the measured carbon, or correct the unit's rating
6 delivery unit 3 fuel 3 month 1 amount 1
  NONE
  give the measured carbon, or correct the unit's rating
6 delivery unit 4 fuel 3 month 1 amount 1
  NONE
  give the measured carbon, or correct the unit's rating
6 hour unit 1 hour 1 percent 1 flow 1
  NONE
  give the measured carbon, or correct the unit's rating
7 delivery unit 1 fuel 1 month 1 amount 1 carbon 1
  there is no heat in use
  give the measured heat, or give the fuel a default heat
7 delivery unit 1 fuel 4 month 1 amount 1 heat 1
  there is no heat in use
  give the measured heat, or give the fuel a default heat
7 delivery unit 3 fuel 5 month 1 amount 1 low-heat 1
  there is no heat in use
  give the measured heat, or give the fuel a default heat
8 hour unit 3 hour 1 percent 1 flow 1
  it repeats an earlier record
  REPEAT
8 delivery unit 1 fuel 1 month 1 amount 1
  it repeats an earlier record
  REPEAT
9 delivery unit 1 fuel 1 month 1 amount 1
  one that isn't known here
  see docs/RULES.md, \"Reasons\"
";
