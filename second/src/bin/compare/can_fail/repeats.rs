//! Programs that are wrong about hours that stand in an earlier record.

use super::{caught_by, ALL};
use crate::wrong_peers;

caught! {
    overlooks_the_unit_of_a_repeat by
        ["worked", "books of repeats", "damaged hours", "wakes over repeats"];
    overlooks_the_number_of_a_repeat by
        ["worked", "books of repeats", "damaged hours", "wakes over repeats"];
    drops_the_upper_byte_of_the_unit by ["books of repeats", "damaged hours", "wakes over repeats"];
    drops_the_lower_byte_of_the_unit by
        ["worked", "books of repeats", "damaged hours", "wakes over repeats"];
    drops_the_upper_byte_of_the_number by
        ["books of repeats", "damaged hours", "wakes over repeats"];
    drops_the_lower_byte_of_the_number by
        ["worked", "books of repeats", "damaged hours", "wakes over repeats"];
    keeps_thirteen_bits_of_the_number by
        ["books of repeats", "damaged hours", "wakes over repeats"];
    adds_unit_and_number_up by
        ["worked", "books of repeats", "damaged hours", "wakes over repeats"];
    puts_all_hours_in_one_row by ["books of repeats", "damaged hours"];
    compares_the_fuel_number_too by
        ["worked", "books of repeats", "damaged hours", "wakes over repeats"];
    compares_the_readings_too by
        ["worked", "books of repeats", "damaged hours", "wakes over repeats"];
    compares_the_moisture_too by
        ["worked", "books of repeats", "damaged hours", "wakes over repeats"];
    compares_whole_records by ["worked", "books of repeats", "damaged hours", "wakes over repeats"];
    holds_hours_against_those_that_counted by
        ["worked", "books of repeats", "damaged hours", "wakes over repeats"];
    holds_hours_against_those_in_good_form by
        ["worked", "books of repeats", "damaged hours", "wakes over repeats"];
    holds_hours_against_those_in_range by
        ["worked", "books of repeats", "damaged hours", "wakes over repeats"];
    knows_8_760_hours by ["books of repeats", "damaged hours"];
    overlooks_repeats_on_dry_units by
        ["worked", "books of repeats", "damaged hours", "wakes over repeats"];
    overlooks_repeats_on_the_64th_unit by ["full books", "wakes over full books"];
    holds_hours_against_records_of_any_kind by
        ["worked", "books of repeats", "damaged hours", "wakes over repeats"];
    asks_one_bit_of_the_kind by ["books of repeats", "damaged hours", "wakes over repeats"];
    compares_neighbours_alone by
        ["worked", "books of repeats", "damaged hours", "wakes over repeats"];
    looks_back_over_two_thousand_records by ["full books", "wakes over full books"];
    compares_the_latest_hour_alone by
        ["worked", "books of repeats", "damaged hours", "wakes over repeats"];
    overlooks_the_first_record_of_the_book by
        ["worked", "books of repeats", "damaged hours", "wakes over repeats"];
    lets_the_third_of_an_hour_count by
        ["worked", "books of repeats", "damaged hours", "wakes over repeats"];
    lets_every_second_of_an_hour_count by
        ["worked", "books of repeats", "damaged hours", "wakes over repeats"];
    sets_the_first_of_a_pair_aside by
        ["worked", "books of repeats", "damaged hours", "wakes over repeats"];
    sets_both_of_a_pair_aside by
        ["worked", "books of repeats", "damaged hours", "wakes over repeats"];
    forgets_the_hours_of_earlier_wakes by
        ["books of repeats", "damaged hours", "wakes over repeats"];
    forgets_earlier_wakes_in_small_ones by
        ["books of repeats", "damaged hours", "wakes over repeats"];
    forgets_earlier_wakes_in_large_ones by
        ["books of repeats", "damaged hours", "wakes over repeats"];
    overlooks_a_repeat_that_a_wake_begins_with by
        ["books of repeats", "damaged hours", "wakes over repeats"];
    overlooks_repeats_within_a_wake by
        ["worked", "books of repeats", "damaged hours", "wakes over repeats"];
    wakes_without_looking_back by
        ["worked", "books of repeats", "damaged hours", "wakes over repeats"];
    tells_of_one_record_without_looking_back by ["worked", "books of repeats", "damaged hours"];
    knows_no_repeats by ["worked", "books of repeats", "damaged hours", "wakes over repeats"];
    keeps_the_hours_of_earlier_books by ALL;
    keeps_the_hours_of_the_wakes_before by ["damaged hours", "wakes over repeats"];
    looks_back_in_the_book_of_the_checkpoint by ["damaged hours", "wakes over repeats"];
    asks_for_repeats_before_the_monitor by
        ["worked", "books of repeats", "damaged hours", "wakes over repeats"];
    asks_for_repeats_before_the_range by
        ["worked", "books of repeats", "damaged hours", "wakes over repeats"];
    asks_for_repeats_before_the_unit by
        ["worked", "books of repeats", "damaged hours", "wakes over repeats"];
    asks_for_repeats_before_the_form by
        ["worked", "books of repeats", "damaged hours", "wakes over repeats"];
    asks_for_repeats_before_moisture_on_a_wet_unit by
        ["books of repeats", "damaged hours", "wakes over repeats"];
    takes_a_repeat_for_out_of_range by
        ["worked", "books of repeats", "damaged hours", "wakes over repeats"];
    lets_a_repeat_count_for_nothing by
        ["worked", "books of repeats", "damaged hours", "wakes over repeats"];
    turns_away_a_checkpoint_that_names_8 by
        ["worked", "books of repeats", "damaged hours", "wakes over repeats"];
    reports_in_spite_of_repeats by
        ["worked", "books of repeats", "damaged hours", "wakes over repeats"];
}
