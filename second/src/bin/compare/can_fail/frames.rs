//! Programs that are wrong about how long a frame may be.

use std::io::{self, PipeReader, PipeWriter};
use std::time::Duration;

use super::{connect, new_run};
use crate::exchange::Exchange;
use crate::random::Random;
use crate::wrong_peers;
use crate::{frames, run_group};

type Program = fn(PipeReader, PipeWriter) -> io::Result<()>;

const FRAMES: &str = "frames";
const ALL_BOOK: &str = "a byte too many, all of it book";
const MOSTLY_BOOK: &str = "a byte too many, mostly book";
const MOSTLY_OUTPUT: &str = "a byte too many, mostly output buffer";
const FOLLOWED: &str = "a byte too many, with a frame behind it";
const LIKE_PARTS: &str = "a byte too many in three like parts, with a frame behind it";
const TWO_TO_THE_32: &str = "2^32 in all";
const AND_96: &str = "2^32 and 96 in all";

/// Whether a program fails in the group, or at the one head of this name.
fn is_caught_by(program: Program, name: &str) -> bool {
    let mut run = new_run();
    run.settings.most_failures = 1;
    run.settings.keeps_counts = false;
    if name == FRAMES {
        run_group(&mut run, FRAMES, frames::run, connect(program));
        return run.failed > 0;
    }
    // A program that waits for what never comes is silent for good.
    run.settings.patience = Duration::from_millis(300);
    let mut stops = frames::STOPS.iter();
    let stop = stops.find(|stop| stop.name == name).expect("it is one");
    let group = |exchange: &mut Exchange, _: &mut Random| stop.run(exchange);
    run_group(&mut run, FRAMES, group, connect(program));
    run.failed > 0
}

fn caught_by<'a>(program: Program, names: &[&'a str]) -> Vec<&'a str> {
    let is_caught = |name: &&str| is_caught_by(program, name);
    names.iter().copied().filter(is_caught).collect()
}

caught! {
    takes_131_072_bytes_of_each_part by [FRAMES];
    takes_5_242_880_bytes_of_each_part by [MOSTLY_BOOK, MOSTLY_OUTPUT, LIKE_PARTS];
    has_more_room_for_a_book_alone by [FRAMES];
    takes_a_byte_less by [FRAMES];
    takes_a_byte_more by [ALL_BOOK, MOSTLY_BOOK, FOLLOWED, LIKE_PARTS];
    counts_the_head_as_well by [FRAMES];
    adds_lengths_up_in_32_bits by [TWO_TO_THE_32, AND_96];
    loses_the_answers_before_a_wrong_head by [ALL_BOOK, FOLLOWED];
    reads_a_frame_that_is_too_long by [ALL_BOOK, MOSTLY_OUTPUT];
    leaves_out_a_frame_that_is_too_long by [ALL_BOOK, FOLLOWED];
}
