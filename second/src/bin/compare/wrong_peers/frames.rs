//! Programs that answer rightly, but have another rule of how long a frame may be, or do not
//! stop as they should at one that is too long.

use std::io::{self, BufReader, BufWriter, PipeReader, PipeWriter, Read, Write};

use second::answer::{answer, HEAD};
use second::bytes::u32_at;
use second::replay::{serve, FRAME_HEAD, MOST_BYTES};

const MOST: u64 = MOST_BYTES as u64;

/// Of book, checkpoint and output buffer.
type Lengths = [u64; 3];

/// What a program does at a head that it doesn't take.
#[derive(Clone, Copy, PartialEq)]
enum AtWrongHead {
    Stops,
    /// And what it has not given yet is lost.
    LosesAnswers,
    /// But reads the frame first.
    ReadsOn,
    /// And goes on with the next.
    LeavesItOut,
}

fn together(lengths: Lengths) -> u64 {
    lengths.into_iter().sum()
}

fn serving(
    input: PipeReader,
    output: PipeWriter,
    takes: fn(Lengths) -> bool,
    at_wrong_head: AtWrongHead,
) -> io::Result<()> {
    let mut input = BufReader::new(input);
    let mut output = BufWriter::with_capacity(1 << 16, output);
    let mut head = [0; FRAME_HEAD];
    loop {
        // What may be lost must not be given before.
        if input.buffer().is_empty() && at_wrong_head != AtWrongHead::LosesAnswers {
            output.flush()?;
        }
        if input.read_exact(&mut head).is_err() {
            return output.flush();
        }
        let lengths = [8, 12, 16].map(|place| u64::from(u32_at(&head, place)));
        if takes(lengths) {
            answer_one(&mut input, &mut output, &head, together(lengths))?;
            continue;
        }
        if at_wrong_head == AtWrongHead::LosesAnswers {
            let _ = output.into_parts();
            return Ok(());
        }
        if at_wrong_head == AtWrongHead::Stops {
            return output.flush();
        }
        leave_out(&mut input, together(lengths))?;
        if at_wrong_head == AtWrongHead::ReadsOn {
            return output.flush();
        }
    }
}

fn leave_out(input: &mut impl Read, length: u64) -> io::Result<u64> {
    io::copy(&mut input.take(length), &mut io::sink())
}

/// With zeros, if the frame is too long in truth.
fn answer_one(
    input: &mut impl Read,
    output: &mut impl Write,
    head: &[u8; FRAME_HEAD],
    length: u64,
) -> io::Result<()> {
    if length > MOST {
        leave_out(input, length)?;
        return output.write_all(&[0; HEAD]);
    }
    let mut frame = head.to_vec();
    input.take(length).read_to_end(&mut frame)?;
    let mut answered = Vec::new();
    serve(&frame[..], &mut answered, answer)?;
    output.write_all(&answered)
}

/// As before there were large books.
pub fn takes_131_072_bytes_of_each_part(input: PipeReader, output: PipeWriter) -> io::Result<()> {
    let takes = |lengths: Lengths| lengths.iter().all(|&length| length <= 131_072);
    serving(input, output, takes, AtWrongHead::Stops)
}

pub fn takes_5_242_880_bytes_of_each_part(input: PipeReader, output: PipeWriter) -> io::Result<()> {
    let takes = |lengths: Lengths| lengths.iter().all(|&length| length <= MOST);
    serving(input, output, takes, AtWrongHead::Stops)
}

/// And of the others what was enough before.
pub fn has_more_room_for_a_book_alone(input: PipeReader, output: PipeWriter) -> io::Result<()> {
    let takes = |lengths: Lengths| {
        let [_, checkpoint, buffer] = lengths;
        together(lengths) <= MOST && checkpoint.max(buffer) <= 131_072
    };
    serving(input, output, takes, AtWrongHead::Stops)
}

pub fn takes_a_byte_less(input: PipeReader, output: PipeWriter) -> io::Result<()> {
    let takes = |lengths| together(lengths) < MOST;
    serving(input, output, takes, AtWrongHead::Stops)
}

pub fn takes_a_byte_more(input: PipeReader, output: PipeWriter) -> io::Result<()> {
    let takes = |lengths| together(lengths) <= MOST + 1;
    serving(input, output, takes, AtWrongHead::Stops)
}

pub fn counts_the_head_as_well(input: PipeReader, output: PipeWriter) -> io::Result<()> {
    let takes = |lengths| together(lengths) + FRAME_HEAD as u64 <= MOST;
    serving(input, output, takes, AtWrongHead::Stops)
}

pub fn adds_lengths_up_in_32_bits(input: PipeReader, output: PipeWriter) -> io::Result<()> {
    let takes = |lengths| together(lengths) % (1 << 32) <= MOST;
    serving(input, output, takes, AtWrongHead::Stops)
}

fn takes_rightly(lengths: Lengths) -> bool {
    together(lengths) <= MOST
}

pub fn loses_the_answers_before_a_wrong_head(
    input: PipeReader,
    output: PipeWriter,
) -> io::Result<()> {
    serving(input, output, takes_rightly, AtWrongHead::LosesAnswers)
}

pub fn reads_a_frame_that_is_too_long(input: PipeReader, output: PipeWriter) -> io::Result<()> {
    serving(input, output, takes_rightly, AtWrongHead::ReadsOn)
}

pub fn leaves_out_a_frame_that_is_too_long(
    input: PipeReader,
    output: PipeWriter,
) -> io::Result<()> {
    serving(input, output, takes_rightly, AtWrongHead::LeavesItOut)
}
