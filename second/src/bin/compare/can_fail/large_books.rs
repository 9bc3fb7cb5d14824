//! Programs that are wrong about books longer than full ones.

use super::caught_by;
use crate::wrong_peers;

const LENGTHS: &str = "lengths of large books";
const REPEATS: &str = "repeats in large books";
const LEDGERS: &str = "ledgers of large books";
const WAKES: &str = "wakes over large books";
const OTHER_LENGTHS: &str = "checkpoints of another length";
const CHECKPOINTS: &str = "checkpoints of large books";

caught! {
    takes_full_books_at_most by [LENGTHS, REPEATS, LEDGERS, WAKES, CHECKPOINTS];
    reports_on_full_books_at_most by [LENGTHS, REPEATS, LEDGERS, WAKES, CHECKPOINTS];
    tells_of_records_of_full_books_at_most by [LENGTHS, REPEATS];
    refuses_the_longest_book by [LENGTHS, REPEATS, LEDGERS];
    takes_a_line_more_than_the_longest_book by [LENGTHS];
    takes_any_length_past_a_full_book by [LENGTHS];
    lists_more_lines_in_a_large_book by [LENGTHS];
    reads_starts_in_16_bits by [LENGTHS, REPEATS, LEDGERS, WAKES, CHECKPOINTS];
    writes_the_records_done_in_16_bits by [LENGTHS, REPEATS, LEDGERS, WAKES, CHECKPOINTS];
    writes_the_records_set_aside_in_16_bits by [REPEATS, CHECKPOINTS];
    writes_the_first_set_aside_in_16_bits by [REPEATS, CHECKPOINTS];
    goes_on_from_the_lower_half_of_the_place by [REPEATS, WAKES, CHECKPOINTS];
    tells_counts_in_16_bits by [LENGTHS, REPEATS, LEDGERS, WAKES, CHECKPOINTS];
    tells_the_records_left_in_16_bits by [WAKES];
    goes_through_65_535_records_at_most by [LENGTHS, REPEATS, LEDGERS, WAKES];
    knows_65_536_records by [LENGTHS, REPEATS];
    finds_lines_by_16_bits_of_their_place by [LENGTHS, REPEATS, WAKES];
    finds_lines_by_16_bits_of_their_byte by [LENGTHS, REPEATS, WAKES];
    tells_of_the_record_in_the_lower_half_of_the_index by [LENGTHS, REPEATS];
    asks_16_bits_of_the_length by [OTHER_LENGTHS, CHECKPOINTS];
    believes_the_tonnes_of_a_full_book_alone by [LEDGERS];
    tells_figures_in_48_bits by [LEDGERS];
    tells_figures_in_double_precision by [LEDGERS];
    looks_back_over_65_536_records by [REPEATS];
    remembers_the_records_of_a_full_book_alone by [REPEATS];
    overlooks_record_65_535 by [REPEATS];
    overlooks_record_65_536 by [REPEATS];
    orders_places_by_16_bits by [REPEATS];
}
