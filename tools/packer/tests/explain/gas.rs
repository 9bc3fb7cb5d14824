//! Analysed gas with a reason each, in rows as those of accounts.rs.

/// Of several faults the one told is the first in the order of the reasons.
pub const GAS: &str = "
1 raw 0302010001000600E803000000000000386C0B00A83E00000000000000000000
  its form is wrong: it has the flag of measured carbon, and a gas-delivery has none
  FORM
1 raw 0307010001000600E8030000B8890000386C0B00A83E00000000000000000000
  its form is wrong: it has the flag of measured carbon, and a gas-delivery has none
  FORM
1 raw 0308010001000600E803000000000000386C0B00A83E00000000000000000000
  its form is wrong: byte 1 of the line has a bit that must be 0
  FORM
1 raw 0304010001000600E803000000000000386C0B00A83E00000000000000000000
  its form is wrong: it has the flag of a low heat without that of a measured one
  FORM
1 raw 0300010001000600E803000000000001386C0B00A83E00000000000000000000
  its form is wrong: it has a heat without the flag for one
  FORM
1 raw 0300010001000600E803000000000000386C0B00A83E00000100000000000000
  its form is wrong: byte 24 of the line has a bit that must be 0
  FORM
1 raw 0300090009000D00FFFFFFFF00000000FFFFFFFFFFFFFFFF0000000000000001
  its form is wrong: byte 31 of the line has a bit that must be 0
  FORM
1 raw 030001000000040040420F00A40100007D002800000000000000000000000000
  its form is wrong: it has a heat without the flag for one
  FORM
2 gas-delivery unit 5 fuel 1 month 1 amount 1 carbon 1 molecular-weight 1
  its unit isn't listed: unit 5 is none of 1, 2, 3, 4
  list unit 5, or correct the record's unit
2 gas-delivery unit 0 fuel 9 month 13 amount 1 carbon 1000001 molecular-weight 0
  its unit isn't listed: unit 0 is none of 1, 2, 3, 4
  correct the record's unit; unit numbers start at 1
3 gas-delivery unit 1 fuel 8 month 1 amount 1 carbon 1 molecular-weight 1
  its fuel isn't listed: fuel 8 is none of 1, 2, 3, 4, 5, 6, 7
  list fuel 8, or correct the record's fuel
3 gas-delivery unit 3 fuel 0 month 13 amount 1 carbon 1000001 molecular-weight 0 low-heat 0
  its fuel isn't listed: fuel 0 is none of 1, 2, 3, 4, 5, 6, 7
  correct the record's fuel; fuel numbers start at 1
4 gas-delivery unit 1 fuel 1 month 0 amount 1 carbon 1 molecular-weight 1
  RANGE: month 0 isn't from 1 to 12
  correct the month
4 gas-delivery unit 2 fuel 1 month 13 amount 1 carbon 1 molecular-weight 1
  RANGE: month 13 isn't from 1 to 12
  correct the month
4 gas-delivery unit 3 fuel 1 month 1 amount 100000001 carbon 1 molecular-weight 1
  RANGE: amount 100000001 isn't from 0 to 100000000
  correct the amount
4 gas-delivery unit 4 fuel 1 month 1 amount 1 carbon 1 molecular-weight 1 heat 0
  RANGE: heat 0 isn't from 1 to 200000
  correct the heat
4 gas-delivery unit 1 fuel 3 month 1 amount 1 carbon 1 molecular-weight 1 heat 200001
  RANGE: heat 200001 isn't from 1 to 200000
  correct the heat
4 gas-delivery unit 1 fuel 1 month 1 amount 1 carbon 1 molecular-weight 1 low-heat 0
  RANGE: low-heat 0 isn't from 1 to 180000
  correct the low-heat
4 gas-delivery unit 1 fuel 5 month 1 amount 1 carbon 1 molecular-weight 1 low-heat 180001
  RANGE: low-heat 180001 isn't from 1 to 180000
  correct the low-heat
4 gas-delivery unit 1 fuel 3 month 1 amount 1 carbon 1 molecular-weight 1 low-heat 35100
  RANGE: low-heat 35100 is for natural-gas alone, and fuel 3 is other
  give the high value as `heat`, or correct the fuel
4 gas-delivery unit 1 fuel 1 month 1 amount 1 carbon 1000001 molecular-weight 1
  RANGE: carbon 1000001 isn't from 0 to 1000000
  correct the carbon
4 gas-delivery unit 3 fuel 3 month 1 amount 1 carbon 4000000 molecular-weight 1
  RANGE: carbon 4000000 isn't from 0 to 1000000
  correct the carbon
4 gas-delivery unit 1 fuel 1 month 1 amount 1 carbon 1 molecular-weight 0
  RANGE: molecular-weight 0 isn't from 1 to 200000
  correct the molecular-weight
4 gas-delivery unit 3 fuel 1 month 1 amount 1 carbon 1 molecular-weight 200001
  RANGE: molecular-weight 200001 isn't from 1 to 200000
  correct the molecular-weight
4 gas-delivery unit 1 fuel 2 month 1 amount 1 carbon 1 molecular-weight 1
  RANGE: a gas-delivery is of gas alone, and fuel 2 is liquid
  say it as a `delivery`, or correct the fuel
4 gas-delivery unit 3 fuel 4 month 1 amount 1 carbon 1 molecular-weight 1
  RANGE: a gas-delivery is of gas alone, and fuel 4 is solid
  say it as a `delivery`, or correct the fuel
4 gas-delivery unit 1 fuel 7 month 1 amount 1 carbon 1 molecular-weight 1
  RANGE: a gas-delivery needs a molar volume, and fuel 7 has none
  give fuel 7 its `molar-volume`, or correct the fuel
4 gas-delivery unit 3 fuel 7 month 1 amount 1 carbon 1 molecular-weight 1 heat 1
  RANGE: a gas-delivery needs a molar volume, and fuel 7 has none
  give fuel 7 its `molar-volume`, or correct the fuel
4 gas-delivery unit 2 fuel 6 month 1 amount 1 carbon 1 molecular-weight 1 low-heat 35100
  RANGE: low-heat 35100 is for natural-gas alone, and fuel 6 is other; a gas-delivery is of gas \
    alone, and fuel 6 is liquid
  give the high value as `heat`, or correct the fuel; say it as a `delivery`, or correct the fuel
4 gas-delivery unit 1 fuel 7 month 99 amount 4294967295 carbon 4294967295 molecular-weight 0 heat 0
  RANGE: month 99 isn't from 1 to 12; amount 4294967295 isn't from 0 to 100000000; heat 0 isn't \
    from 1 to 200000; carbon 4294967295 isn't from 0 to 1000000; molecular-weight 0 isn't from 1 \
    to 200000; a gas-delivery needs a molar volume, and fuel 7 has none
  correct the month, amount, heat, carbon, molecular-weight; give fuel 7 its `molar-volume`, or \
    correct the fuel
7 gas-delivery unit 1 fuel 5 month 1 amount 1 carbon 1 molecular-weight 1
  there is no heat in use: no heat was measured, and fuel 5 has no default heat
  give the measured heat, or give fuel 5 a default heat
7 gas-delivery unit 3 fuel 5 month 1 amount 0 carbon 0 molecular-weight 1
  there is no heat in use: no heat was measured, and fuel 5 has no default heat
  give the measured heat, or give fuel 5 a default heat
";

/// Reasons that nothing in the record bears out, with general words.
pub const UNSUPPORTED_GAS: &str = "
1 gas-delivery unit 1 fuel 1 month 1 amount 1 carbon 1 molecular-weight 1
  its form is wrong
  FORM
2 gas-delivery unit 1 fuel 9 month 1 amount 1 carbon 1 molecular-weight 1
  its unit isn't listed
  list it, or correct its number
3 gas-delivery unit 1 fuel 2 month 1 amount 1 carbon 1 molecular-weight 1
  its fuel isn't listed
  list it, or correct its number
4 gas-delivery unit 1 fuel 1 month 1 amount 0 carbon 0 molecular-weight 1 heat 1
  RANGE
  ANY
4 gas-delivery unit 3 fuel 5 month 12 amount 100000000 carbon 1000000 molecular-weight 200000 \
    low-heat 180000
  RANGE
  ANY
4 gas-delivery unit 2 fuel 3 month 12 amount 1 carbon 1 molecular-weight 1 heat 200000
  RANGE
  ANY
4 gas-delivery unit 1 fuel 9 month 1 amount 1 carbon 1 molecular-weight 1 low-heat 1
  RANGE
  ANY
5 gas-delivery unit 1 fuel 1 month 1 amount 1 carbon 1 molecular-weight 1
  an hour of a unit without a monitor
  correct the hour's unit, or the unit's line
6 gas-delivery unit 2 fuel 3 month 1 amount 1 carbon 1 molecular-weight 1
  NONE
  give the measured carbon, or correct the unit's rating
7 gas-delivery unit 1 fuel 1 month 1 amount 1 carbon 1 molecular-weight 1
  there is no heat in use
  give the measured heat, or give the fuel a default heat
7 gas-delivery unit 1 fuel 5 month 1 amount 1 carbon 1 molecular-weight 1 low-heat 1
  there is no heat in use
  give the measured heat, or give the fuel a default heat
8 gas-delivery unit 1 fuel 1 month 1 amount 1 carbon 1 molecular-weight 1
  it repeats an earlier record
  REPEAT
";
