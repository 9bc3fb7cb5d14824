//! Programs that are wrong about gas analysed by molecular weight.

use super::caught_by;
use crate::wrong_peers;

/// Where analysed gas is compared.
const EVERYWHERE: [&str; 5] = [
    "worked",
    "public-figures",
    "books of analysed gas",
    "damaged analysed gas",
    "wakes over analysed gas",
];

/// In which every record counts, and none is at an end of a range.
const BUT_PUBLIC_FIGURES: [&str; 4] = [
    "worked",
    "books of analysed gas",
    "damaged analysed gas",
    "wakes over analysed gas",
];

const BUT_FIGURES_AND_WAKES: [&str; 3] =
    ["worked", "books of analysed gas", "damaged analysed gas"];

caught! {
    puts_analysed_gas_into_the_biomass_ledger by EVERYWHERE;
    puts_analysed_gas_into_no_ledger by EVERYWHERE;
    gives_analysed_gas_no_method by BUT_FIGURES_AND_WAKES;
    gives_no_ch4_of_analysed_gas by BUT_PUBLIC_FIGURES;
    gives_no_n2o_of_analysed_gas by BUT_PUBLIC_FIGURES;
    gives_co2_alone_of_analysed_gas by BUT_PUBLIC_FIGURES;
    takes_the_default_heat_of_analysed_gas by BUT_PUBLIC_FIGURES;
    takes_a_low_value_of_analysed_gas_for_a_high_one by BUT_PUBLIC_FIGURES;
    rounds_low_values_of_analysed_gas_to_even by
        ["worked", "damaged analysed gas", "wakes over analysed gas"];
    counts_analysed_gas_of_a_monitored_unit by BUT_PUBLIC_FIGURES;
    counts_analysed_gas_of_a_dry_unit by BUT_PUBLIC_FIGURES;
    does_not_take_analysed_gas_for_carbon_measured by EVERYWHERE;
    prefers_the_measured_heat_of_analysed_gas by EVERYWHERE;
    permits_analysed_gas_on_small_units_alone by
        ["worked", "books of analysed gas", "wakes over analysed gas"];
    permits_only_natural_gas_on_large_units by
        ["worked", "books of analysed gas", "wakes over analysed gas"];
    refuses_analysed_gas_on_a_monitored_unit by BUT_PUBLIC_FIGURES;
    knows_analysed_natural_gas_alone by EVERYWHERE;
    knows_no_molar_volume by EVERYWHERE;
    lets_molar_volumes_reach_down_to_19_999 by ["worked", "books of analysed gas"];
    lets_molar_volumes_reach_27_001 by ["worked", "books of analysed gas"];
    refuses_molar_volume_20_000 by BUT_PUBLIC_FIGURES;
    refuses_molar_volume_27_000 by ["worked", "books of analysed gas", "wakes over analysed gas"];
    takes_molar_volume_1 by ["worked", "books of analysed gas"];
    asks_for_a_molar_volume_of_every_fuel by EVERYWHERE;
    asks_for_a_molar_volume_of_every_gas by
        ["worked", "public-figures", "books of analysed gas", "wakes over analysed gas"];
    refuses_a_molar_volume_of_what_is_no_gas by BUT_PUBLIC_FIGURES;
    overlooks_the_molar_volume_of_what_is_no_gas by
        ["books of analysed gas", "damaged analysed gas"];
    overlooks_molar_volumes_out_of_range by BUT_FIGURES_AND_WAKES;
    asks_for_no_least_molar_volume by BUT_FIGURES_AND_WAKES;
    asks_for_no_greatest_molar_volume by BUT_FIGURES_AND_WAKES;
    reads_the_molar_volume_from_two_bytes by ["books of analysed gas", "damaged analysed gas"];
    reads_the_molar_volume_upper_byte_first by EVERYWHERE;
    overlooks_the_bytes_after_the_molar_volume by ["books of analysed gas", "damaged analysed gas"];
    tells_a_wrong_molar_volume_of_the_unit_lines by BUT_FIGURES_AND_WAKES;
    judges_the_molar_volume_by_record by BUT_FIGURES_AND_WAKES;
    keeps_the_molar_volumes_of_the_checkpoints_book by
        ["damaged analysed gas", "wakes over analysed gas"];
    turns_carbon_by_mass_into_co2_by_44_over_12 by EVERYWHERE;
    turns_carbon_by_mass_into_co2_by_3_667 by EVERYWHERE;
    forgets_weight_and_volume by EVERYWHERE;
    forgets_the_molecular_weight by EVERYWHERE;
    forgets_the_carbon_by_mass by EVERYWHERE;
    knows_one_molar_volume by EVERYWHERE;
    takes_the_molar_volume_at_0_degrees by EVERYWHERE;
    multiplies_by_the_molar_volume by EVERYWHERE;
    takes_the_first_lines_molar_volume by
        ["books of analysed gas", "damaged analysed gas", "wakes over analysed gas"];
    takes_the_last_lines_molar_volume by
        ["books of analysed gas", "damaged analysed gas", "wakes over analysed gas"];
    takes_the_next_lines_molar_volume by
        ["books of analysed gas", "damaged analysed gas", "wakes over analysed gas"];
    takes_the_product_in_64_bits by EVERYWHERE;
    fills_64_bits_with_the_product by EVERYWHERE;
    takes_all_but_3_664_in_64_bits by
        ["worked", "books of analysed gas", "wakes over analysed gas"];
    takes_amount_by_carbon_in_32_bits by EVERYWHERE;
    takes_analysed_gas_in_double_precision by EVERYWHERE;
    takes_month_0_of_analysed_gas by BUT_FIGURES_AND_WAKES;
    takes_month_13_of_analysed_gas by BUT_FIGURES_AND_WAKES;
    knows_eleven_months_of_analysed_gas by
        [
            "public-figures", "books of analysed gas",
            "damaged analysed gas", "wakes over analysed gas"
        ];
    reads_the_month_of_analysed_gas_from_one_byte by
        ["books of analysed gas", "damaged analysed gas"];
    lets_gas_reach_100_000_001 by ["worked", "books of analysed gas"];
    lets_gas_reach_only_99_999_999 by
        ["worked", "public-figures", "books of analysed gas", "wakes over analysed gas"];
    asks_for_some_gas by ["worked", "books of analysed gas"];
    lets_carbon_by_mass_reach_1_000_001 by ["worked", "books of analysed gas"];
    lets_carbon_by_mass_reach_only_999_999 by
        ["worked", "books of analysed gas", "wakes over analysed gas"];
    asks_for_some_carbon_by_mass by ["worked", "books of analysed gas"];
    lets_carbon_by_mass_reach_4_000_000 by BUT_FIGURES_AND_WAKES;
    takes_molecular_weight_0 by ["worked", "books of analysed gas"];
    lets_the_weight_reach_200_001 by ["worked", "books of analysed gas"];
    lets_the_weight_reach_only_199_999 by
        ["worked", "books of analysed gas", "wakes over analysed gas"];
    asks_for_a_weight_from_2_on by ["worked", "books of analysed gas", "wakes over analysed gas"];
    reads_the_weight_from_two_bytes by BUT_PUBLIC_FIGURES;
    reads_carbon_by_mass_from_three_bytes by ["books of analysed gas", "damaged analysed gas"];
    reads_the_weight_where_the_carbon_is by EVERYWHERE;
    takes_heat_0_of_analysed_gas by BUT_FIGURES_AND_WAKES;
    lets_heat_of_analysed_gas_reach_200_001 by ["worked", "books of analysed gas"];
    takes_low_value_0_of_analysed_gas by ["worked", "books of analysed gas"];
    lets_low_values_of_analysed_gas_reach_180_001 by ["worked", "books of analysed gas"];
    takes_any_analysed_gas_for_natural_gas by BUT_FIGURES_AND_WAKES;
    takes_an_analysed_liquid_for_a_gas by BUT_FIGURES_AND_WAKES;
    takes_an_analysed_solid_for_a_gas by
        ["worked", "books of analysed gas", "wakes over analysed gas"];
    does_not_ask_for_a_gas by BUT_PUBLIC_FIGURES;
    has_a_molar_volume_of_its_own by ["worked", "books of analysed gas", "wakes over analysed gas"];
    knows_no_analysed_gas by EVERYWHERE;
    takes_analysed_gas_for_a_fuel_record by EVERYWHERE;
    overlooks_the_carbon_flag_of_analysed_gas by BUT_FIGURES_AND_WAKES;
    asks_for_the_carbon_flag_of_analysed_gas by EVERYWHERE;
    overlooks_flags_above_bit_2_of_analysed_gas by BUT_FIGURES_AND_WAKES;
    overlooks_the_last_flag_of_analysed_gas by BUT_FIGURES_AND_WAKES;
    overlooks_a_low_flag_without_heat_of_analysed_gas by BUT_FIGURES_AND_WAKES;
    takes_a_low_flag_of_analysed_gas_for_heat by BUT_FIGURES_AND_WAKES;
    knows_no_low_value_of_analysed_gas by BUT_PUBLIC_FIGURES;
    knows_no_heat_of_analysed_gas by EVERYWHERE;
    overlooks_heat_of_analysed_gas_without_its_flag by BUT_FIGURES_AND_WAKES;
    overlooks_the_bytes_after_the_weight by BUT_FIGURES_AND_WAKES;
    overlooks_the_last_bytes_of_analysed_gas by BUT_FIGURES_AND_WAKES;
    overlooks_the_byte_after_the_weight by BUT_FIGURES_AND_WAKES;
    asks_for_the_unit_of_analysed_gas_before_the_form by
        ["books of analysed gas", "damaged analysed gas"];
    asks_for_the_fuel_before_the_unit_of_analysed_gas by ["books of analysed gas"];
    asks_for_the_weight_before_the_unit by ["books of analysed gas", "damaged analysed gas"];
    asks_for_the_molar_volume_before_the_form by ["books of analysed gas"];
    asks_for_heat_before_the_range_of_analysed_gas by ["books of analysed gas"];
    takes_a_fuel_that_is_no_gas_for_unlisted by BUT_PUBLIC_FIGURES;
    takes_analysed_oil_for_bad_form by BUT_PUBLIC_FIGURES;
    permits_no_method_without_a_molar_volume by BUT_PUBLIC_FIGURES;
    takes_a_carbon_flag_of_analysed_gas_for_out_of_range by BUT_FIGURES_AND_WAKES;
    needs_no_heat_of_analysed_gas by ["worked", "books of analysed gas"];
    needs_no_heat_of_analysed_gas_on_a_monitored_unit by ["worked", "books of analysed gas"];
    asks_for_no_molar_volume_on_a_monitored_unit by BUT_PUBLIC_FIGURES;
    lets_gas_without_a_molar_volume_count_for_nothing by BUT_PUBLIC_FIGURES;
    asks_two_bits_of_the_kind_of_analysed_gas by ["books of analysed gas", "damaged analysed gas"];
    rounds_halves_of_analysed_gas_upward by
        ["worked", "damaged analysed gas", "wakes over analysed gas"];
    rounds_halves_of_analysed_gas_downward by
        ["worked", "damaged analysed gas", "wakes over analysed gas"];
    rounds_halves_of_analysed_gas_to_the_odd_number by
        ["worked", "damaged analysed gas", "wakes over analysed gas"];
    never_rounds_analysed_gas_up by EVERYWHERE;
    always_rounds_analysed_gas_up by EVERYWHERE;
    asks_whether_the_rest_is_even by ["worked", "damaged analysed gas", "wakes over analysed gas"];
    asks_whether_the_product_is_even by
        ["worked", "damaged analysed gas", "wakes over analysed gas"];
    halves_an_odd_molar_volume_downward by ["books of analysed gas", "wakes over analysed gas"];
    halves_an_odd_molar_volume_upward by ["books of analysed gas", "wakes over analysed gas"];
    holds_the_rest_against_half_of_24_000 by BUT_PUBLIC_FIGURES;
    asks_the_parity_of_a_double by ["worked", "wakes over analysed gas"];
    divides_the_carbon_before_3_664 by EVERYWHERE;
    rounds_carbon_by_mass_to_milligrams by EVERYWHERE;
    divides_the_weight_by_the_volume_first by EVERYWHERE;
    carries_what_is_left_to_the_next_record by EVERYWHERE;
    makes_a_fuel_record_of_analysed_gas by EVERYWHERE;
    takes_a_months_second_analysed_gas_for_a_repeat by
        ["books of analysed gas", "damaged analysed gas", "wakes over analysed gas"];
    takes_the_same_analysed_gas_for_a_repeat by
        ["books of analysed gas", "wakes over analysed gas"];
    takes_a_months_analysed_gas_of_one_fuel_for_a_repeat by
        ["books of analysed gas", "damaged analysed gas", "wakes over analysed gas"];
    takes_analysed_gas_after_fuel_for_a_repeat by
        ["books of analysed gas", "damaged analysed gas", "wakes over analysed gas"];
    takes_fuel_after_analysed_gas_for_a_repeat by
        ["books of analysed gas", "wakes over analysed gas"];
    takes_analysed_gas_after_an_hour_for_a_repeat by
        ["books of analysed gas", "damaged analysed gas"];
    takes_an_hour_after_analysed_gas_for_a_repeat by
        ["books of analysed gas", "damaged analysed gas"];
    takes_analysed_gas_after_anodes_for_a_repeat by
        ["books of analysed gas", "damaged analysed gas", "wakes over analysed gas"];
    takes_anodes_after_analysed_gas_for_a_repeat by
        ["worked", "books of analysed gas", "wakes over analysed gas"];
}
