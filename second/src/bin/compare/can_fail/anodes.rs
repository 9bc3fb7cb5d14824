//! Programs that are wrong about anodes.

use super::caught_by;
use crate::wrong_peers;

/// Where anodes are compared.
const EVERYWHERE: [&str; 6] = [
    "worked",
    "public-figures",
    "books of anodes",
    "books of repeats",
    "damaged anodes",
    "wakes over repeats",
];

caught! {
    turns_carbon_of_anodes_into_co2_by_44_over_12 by EVERYWHERE;
    turns_carbon_of_anodes_into_co2_by_3_667 by EVERYWHERE;
    multiplies_the_impurities_as_parts by EVERYWHERE;
    forgets_the_sulphur by EVERYWHERE;
    forgets_the_ash by EVERYWHERE;
    forgets_the_other_impurities by EVERYWHERE;
    takes_anodes_for_pure_carbon by EVERYWHERE;
    takes_the_impurities_for_the_carbon by EVERYWHERE;
    takes_hundredths_of_a_percent_for_tenths by EVERYWHERE;
    never_rounds_anodes_up by
        ["worked", "public-figures", "books of anodes", "damaged anodes", "wakes over repeats"];
    always_rounds_anodes_up by
        ["worked", "books of anodes", "damaged anodes", "wakes over repeats"];
    forgets_to_divide_by_10 by EVERYWHERE;
    divides_by_10_before_3_664 by
        ["worked", "public-figures", "books of anodes", "damaged anodes", "wakes over repeats"];
    rounds_the_carbon_to_milligrams by
        ["worked", "public-figures", "books of anodes", "damaged anodes", "wakes over repeats"];
    takes_metal_by_use_in_32_bits by
        ["worked", "public-figures", "books of anodes", "damaged anodes", "wakes over repeats"];
    takes_anodes_in_double_precision by
        ["worked", "public-figures", "books of anodes", "damaged anodes", "wakes over repeats"];
    puts_anodes_into_the_biomass_ledger by EVERYWHERE;
    puts_anodes_into_no_ledger by EVERYWHERE;
    gives_anodes_method_1 by ["worked", "books of anodes", "books of repeats", "damaged anodes"];
    gives_anodes_method_3 by ["worked", "books of anodes", "books of repeats", "damaged anodes"];
    gives_ch4_of_anodes by EVERYWHERE;
    gives_n2o_of_anodes by EVERYWHERE;
    leaves_the_anodes_of_a_monitored_unit_to_its_hours by
        ["worked", "books of anodes", "books of repeats", "damaged anodes", "wakes over repeats"];
    asks_for_a_monitor_of_anodes by EVERYWHERE;
    refuses_anodes_on_a_monitored_unit by
        ["worked", "books of anodes", "books of repeats", "damaged anodes", "wakes over repeats"];
    refuses_anodes_on_a_dry_unit by
        ["worked", "books of anodes", "books of repeats", "damaged anodes", "wakes over repeats"];
    asks_for_a_method_of_anodes_on_a_large_unit by
        ["worked", "books of anodes", "damaged anodes", "wakes over repeats"];
    asks_for_a_fuel_of_anodes by EVERYWHERE;
    asks_for_heat_of_anodes by EVERYWHERE;
    knows_no_anodes by EVERYWHERE;
    overlooks_the_flags_of_anodes by
        ["worked", "books of anodes", "books of repeats", "damaged anodes", "wakes over repeats"];
    overlooks_the_fuel_number_of_anodes by
        ["worked", "books of anodes", "books of repeats", "damaged anodes", "wakes over repeats"];
    looks_for_the_fuel_that_anodes_name by
        ["worked", "books of anodes", "books of repeats", "damaged anodes", "wakes over repeats"];
    overlooks_the_bytes_after_the_impurities by
        ["worked", "books of anodes", "books of repeats", "damaged anodes", "wakes over repeats"];
    overlooks_the_two_bytes_after_the_impurities by
        ["worked", "books of anodes", "books of repeats", "damaged anodes"];
    overlooks_the_last_bytes_of_anodes by
        ["worked", "books of anodes", "books of repeats", "damaged anodes", "wakes over repeats"];
    asks_for_the_range_of_anodes_before_the_unit by
        ["books of anodes", "books of repeats", "damaged anodes"];
    asks_for_the_unit_of_anodes_before_the_form by
        ["books of anodes", "books of repeats", "damaged anodes"];
    takes_a_fuel_number_of_anodes_for_out_of_range by
        ["worked", "books of anodes", "books of repeats", "damaged anodes", "wakes over repeats"];
    asks_each_impurity_alone by
        ["worked", "books of anodes", "books of repeats", "damaged anodes", "wakes over repeats"];
    adds_impurities_up_in_16_bits by ["books of anodes", "damaged anodes"];
    lets_impurities_reach_10_001 by ["worked", "books of anodes", "books of repeats"];
    takes_month_0 by
        ["worked", "books of anodes", "books of repeats", "damaged anodes", "wakes over repeats"];
    takes_month_13 by ["worked", "books of anodes", "books of repeats", "damaged anodes"];
    lets_metal_reach_100_000_001 by ["worked", "books of anodes", "books of repeats"];
    lets_use_reach_1_001 by ["worked", "books of anodes", "books of repeats"];
    asks_for_some_metal by ["worked", "books of anodes", "books of repeats", "damaged anodes"];
    asks_for_some_use by ["worked", "books of anodes"];
    asks_for_some_carbon by ["worked", "books of anodes", "books of repeats", "wakes over repeats"];
    lets_metal_reach_only_99_999_999 by
        ["worked", "public-figures", "books of anodes", "wakes over repeats"];
    lets_use_reach_only_999 by
        ["worked", "public-figures", "books of anodes", "books of repeats", "wakes over repeats"];
    knows_eleven_months by
        [
            "public-figures", "books of anodes", "books of repeats",
            "damaged anodes", "wakes over repeats"
        ];
    reads_use_from_two_bytes by ["worked", "books of anodes", "damaged anodes"];
    reads_the_month_from_one_byte by
        ["books of anodes", "books of repeats", "damaged anodes", "wakes over repeats"];
    reads_impurities_upper_byte_first by EVERYWHERE;
    tells_anodes_by_the_month_alone by
        ["worked", "books of anodes", "books of repeats", "damaged anodes", "wakes over repeats"];
    tells_anodes_by_the_unit_alone by EVERYWHERE;
    drops_the_upper_byte_of_the_anodes_unit by
        ["books of repeats", "damaged anodes", "wakes over repeats"];
    adds_unit_and_month_up by
        ["books of anodes", "books of repeats", "damaged anodes", "wakes over repeats"];
    puts_all_months_in_one_row by ["books of repeats", "damaged anodes"];
    keeps_four_bits_of_the_month by ["books of repeats", "damaged anodes", "wakes over repeats"];
    compares_bytes_2_to_7_of_anodes by
        ["worked", "books of anodes", "books of repeats", "damaged anodes", "wakes over repeats"];
    compares_metal_and_use_too by
        ["worked", "books of repeats", "damaged anodes", "wakes over repeats"];
    compares_the_impurities_too by
        ["worked", "books of anodes", "books of repeats", "damaged anodes", "wakes over repeats"];
    compares_whole_anode_records by
        ["worked", "books of anodes", "books of repeats", "damaged anodes", "wakes over repeats"];
    takes_an_hour_for_the_anodes_of_its_number by
        ["worked", "books of repeats", "damaged anodes", "wakes over repeats"];
    takes_anodes_for_the_hour_of_their_month by
        ["worked", "books of repeats", "damaged anodes", "wakes over repeats"];
    holds_anodes_against_records_of_any_kind by
        ["worked", "books of repeats", "damaged anodes", "wakes over repeats"];
    holds_anodes_against_fuel_of_the_month by
        ["books of repeats", "damaged anodes", "wakes over repeats"];
    asks_one_bit_of_the_anodes_kind by ["books of repeats", "damaged anodes"];
    holds_anodes_against_those_that_counted by
        ["worked", "books of anodes", "books of repeats", "damaged anodes", "wakes over repeats"];
    holds_anodes_against_those_in_good_form by
        ["worked", "books of anodes", "books of repeats", "damaged anodes", "wakes over repeats"];
    holds_anodes_against_those_in_range by
        ["worked", "books of repeats", "damaged anodes", "wakes over repeats"];
    overlooks_repeated_anodes_on_monitored_units by
        ["worked", "books of anodes", "books of repeats", "damaged anodes", "wakes over repeats"];
    knows_eleven_months_that_are_repeated by ["books of repeats", "wakes over repeats"];
    compares_neighbouring_anodes_alone by
        ["worked", "books of repeats", "damaged anodes", "wakes over repeats"];
    looks_back_over_twelve_records by ["books of repeats", "wakes over repeats"];
    lets_the_third_of_anodes_count by
        ["worked", "books of repeats", "damaged anodes", "wakes over repeats"];
    sets_the_first_anodes_of_a_pair_aside by
        ["worked", "books of anodes", "books of repeats", "damaged anodes", "wakes over repeats"];
    knows_no_repeated_anodes by
        ["worked", "books of anodes", "books of repeats", "damaged anodes", "wakes over repeats"];
    forgets_the_anodes_of_earlier_wakes by
        ["books of anodes", "books of repeats", "damaged anodes", "wakes over repeats"];
    tells_of_one_anode_record_without_looking_back by
        ["worked", "books of anodes", "books of repeats", "damaged anodes"];
    asks_for_repeated_anodes_before_the_range by
        ["worked", "books of anodes", "books of repeats", "damaged anodes", "wakes over repeats"];
    asks_for_repeated_anodes_before_the_unit by
        ["worked", "books of anodes", "books of repeats", "damaged anodes", "wakes over repeats"];
    asks_for_repeated_anodes_before_the_form by
        ["worked", "books of anodes", "books of repeats", "damaged anodes", "wakes over repeats"];
    takes_repeated_anodes_for_out_of_range by
        ["worked", "books of anodes", "books of repeats", "damaged anodes", "wakes over repeats"];
    lets_repeated_anodes_count_for_nothing by
        ["worked", "books of anodes", "books of repeats", "damaged anodes", "wakes over repeats"];
}
