//! Programs that are wrong about anything that has no file of its own here.

use super::{caught_by, ALL};
use crate::wrong_peers;

/// One test for each wrong peer: each of these groups catches it, and there may be others.
macro_rules! caught {
    ($($peer:ident by $groups:expr;)*) => {
        $(
            #[test]
            fn $peer() {
                let groups = $groups;
                assert_eq!(caught_by(wrong_peers::$peer, &groups), groups);
            }
        )*
    };
}

caught! {
    rounds_each_record_to_kilograms by ALL;
    falls_back_to_method_1 by ["worked", "books", "histories"];
    counts_fuel_co2_of_a_monitored_unit by ALL;
    multiplies_in_single_precision by ALL;
    compares_rounded_co2e by ["books", "histories"];
    rounds_halves_of_r_upward by ALL;
    rounds_halves_of_r_downward by ["worked", "books", "damage", "histories"];
    rounds_halves_of_r_to_the_odd_number by ALL;
    never_rounds_r_up by ALL;
    never_rounds_r_up_to_1 by ["worked", "books", "damage", "histories"];
    holds_the_rest_of_r_against_half_of_1_000 by ALL;
    takes_the_multiple_in_double_precision by ["books", "histories"];
    takes_minus_zero_for_less_than_zero by ["books", "histories"];
    turns_carbon_into_co2_by_44_over_12 by ALL;
    subtracts_all_biomass_always by ALL;
    clears_the_output_when_it_refuses by ALL;
    wakes_to_the_end_whatever_the_budget by ["books", "damage", "histories"];
    knows_nine_reasons by ["damage", "histories"];
    overlooks_the_last_byte_of_lines by ["worked", "books", "damage", "histories"];
    minds_the_output_buffer_first by ["histories"];
    tells_the_records_done_as_left by ALL;
    asks_if_a_checkpoint_is_sound_before_its_length by ["histories"];
    pairs_25_with_310_in_the_first_set by ALL;
    pairs_25_with_310_in_the_second_set by ["worked", "books", "histories"];
    pairs_21_with_298_in_the_first_set by ALL;
    pairs_21_with_298_in_the_second_set by ["worked", "books", "histories"];
    takes_the_first_set_always by ["worked", "books", "histories"];
    takes_the_second_set_always by ALL;
    decides_by_the_first_set by ["books", "histories"];
    tells_co2e_of_the_first_set by ["worked", "books", "histories"];
    subtracts_biomass_by_the_first_set by ["books", "histories"];
    accepts_a_third_set by ["books", "histories"];
    keeps_the_set_in_the_checkpoint by ["worked", "books", "histories"];
    reports_under_the_set_that_the_job_was_begun_with by ["books", "histories"];
    ties_a_checkpoint_to_the_set by ["books", "histories"];
    rounds_halves_of_the_heat_downward by ["worked", "books", "damage", "histories"];
    rounds_halves_of_the_heat_to_the_even_number by ["worked", "books", "damage", "histories"];
    never_rounds_the_heat_up by ALL;
    takes_a_low_value_for_a_high_one by ALL;
    multiplies_the_masses_by_1_11 by ALL;
    takes_the_high_value_for_co2_alone by ALL;
    takes_the_high_value_under_method_2_alone by ["worked", "books", "damage", "histories"];
    does_not_ask_the_class by ["worked", "books", "damage", "histories"];
    takes_any_gas_for_natural_gas by ["worked", "books", "histories"];
    lets_low_values_reach_200_000 by ["worked", "books", "damage", "histories"];
    takes_0_for_a_low_value by ["worked", "books", "histories"];
    takes_the_default_heat_for_a_low_value by ALL;
    chooses_the_method_as_if_a_low_value_were_not_measured by ALL;
    refuses_a_low_value_with_carbon by ["worked", "books", "damage", "histories"];
    overlooks_a_low_flag_without_heat by ["worked", "books", "histories"];
    takes_a_low_flag_for_measured_heat by ["worked", "books", "damage", "histories"];
    takes_a_low_flag_without_heat_for_out_of_range by ["worked", "books", "histories"];
    overlooks_moisture_on_a_dry_unit by ALL;
    takes_tenths_of_a_percent_for_percents by ALL;
    multiplies_by_the_moisture by ALL;
    divides_by_what_is_dry by ALL;
    rounds_r_before_the_moisture by ALL;
    corrects_the_percent_in_single_precision by ALL;
    rounds_halves_of_an_odd_multiple_upward by ["worked", "books", "damage", "histories"];
    rounds_halves_of_an_odd_multiple_downward by ["worked", "books", "damage", "histories"];
    never_rounds_r_of_an_odd_multiple_up by ALL;
    reads_moisture_from_one_byte by ALL;
    reads_moisture_upper_byte_first by ALL;
    reads_moisture_from_four_bytes by ["books", "damage", "histories"];
    takes_moisture_past_1_000_for_1_000 by ["worked", "books", "damage", "histories"];
    lets_the_multiple_wrap_around by ["worked", "books", "damage", "histories"];
    lets_moisture_reach_1_001 by ["worked", "books", "damage", "histories"];
    lets_moisture_reach_only_999 by ["worked", "books", "damage", "histories"];
    looks_for_the_dry_flag_in_bit_0 by ["worked", "books", "damage", "histories"];
    takes_a_unit_without_a_monitor_for_dry by ["worked", "books", "damage", "histories"];
    overlooks_moisture_on_a_wet_unit by ["worked", "books", "damage", "histories"];
    asks_for_moisture_before_the_unit by ["worked", "books", "damage", "histories"];
    asks_for_the_range_of_moisture_before_the_flag by ["worked", "books", "damage", "histories"];
    asks_for_moisture_on_a_wet_unit_last by ["worked", "books", "damage", "histories"];
    takes_moisture_on_a_wet_unit_for_out_of_range by ["worked", "books", "damage", "histories"];
    takes_a_dry_flag_alone_for_no_monitor by ["worked", "books", "damage", "histories"];
    takes_a_dry_flag_alone_for_a_monitor by ["worked", "books", "damage", "histories"];
    overlooks_flags_above_bit_1 by ["books", "damage", "histories"];
    refuses_the_dry_flag by ALL;
    minds_fuel_lines_before_the_dry_flag by ["books", "histories"];
    chooses_a_method_for_fuel_records_of_a_dry_unit by ["worked", "books", "damage", "histories"];
}
