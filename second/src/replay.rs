//! A stream of frames and the stream of their answers, as `replay` and the
//! driver of the C face have them.

use std::io::{self, BufReader, BufWriter, Read, Write};

use crate::answer::{Answer, Call, Frame};
use crate::bytes::{all_zero, u32_at};

pub const FRAME_HEAD: usize = 24;
/// Of the three parts together.
pub const MOST_BYTES: u32 = 5_242_880;

/// Answers frames up to the end of input or a head that breaks the rules.
pub fn serve(
    input: impl Read,
    output: impl Write,
    answer: impl Fn(&Frame) -> Answer,
) -> io::Result<()> {
    let mut input = BufReader::with_capacity(1 << 16, input);
    let mut output = BufWriter::with_capacity(1 << 16, output);
    let mut bytes = [0; FRAME_HEAD];
    loop {
        // Whoever waits for answers before asking on must get them.
        if input.buffer().is_empty() {
            output.flush()?;
        }
        if input.read_exact(&mut bytes).is_err() {
            return output.flush();
        }
        let Some(head) = Head::read(&bytes) else {
            return output.flush();
        };
        let mut parts = head.lengths.map(|length| vec![0; length as usize]);
        for part in &mut parts {
            input.read_exact(part)?;
        }
        let [book, checkpoint, before] = &parts;
        let answered = answer(&Frame {
            call: head.call,
            argument: head.argument,
            book,
            checkpoint,
            output: before,
        });
        output.write_all(&answered.head)?;
        output.write_all(&answered.output)?;
    }
}

struct Head {
    call: Call,
    argument: u32,
    lengths: [u32; 3],
}

impl Head {
    fn read(bytes: &[u8; FRAME_HEAD]) -> Option<Head> {
        let call = match bytes[0] {
            1 => Call::Fresh,
            2 => Call::Wake,
            3 => Call::Report,
            4 => Call::Record,
            5 => Call::Left,
            _ => return None,
        };
        let head = Head {
            call,
            argument: u32_at(bytes, 4),
            lengths: [8, 12, 16].map(|place| u32_at(bytes, place)),
        };
        // Only a wake and one record name the bytes of the argument.
        let argument_named = matches!(call, Call::Wake | Call::Record);
        let sound = all_zero(&bytes[1..4])
            && all_zero(&bytes[20..])
            && (argument_named || head.argument == 0)
            && together(head.lengths) <= u64::from(MOST_BYTES);
        sound.then_some(head)
    }
}

/// Three lengths may add up to more than 32 bits hold.
fn together(lengths: [u32; 3]) -> u64 {
    lengths.into_iter().map(u64::from).sum()
}

/// The bytes of a frame.
pub fn encode(frame: &Frame) -> Vec<u8> {
    let parts = [frame.book, frame.checkpoint, frame.output];
    let length: usize = parts.iter().map(|part| part.len()).sum();
    let mut bytes = Vec::with_capacity(FRAME_HEAD + length);
    bytes.extend([frame.call as u8, 0, 0, 0]);
    bytes.extend(frame.argument.to_le_bytes());
    for part in parts {
        bytes.extend((part.len() as u32).to_le_bytes());
    }
    bytes.extend([0; 4]);
    parts.iter().for_each(|part| bytes.extend(*part));
    bytes
}

#[cfg(test)]
mod tests {
    use super::*;

    fn is_read(lengths: [u32; 3]) -> bool {
        let mut bytes = [0; FRAME_HEAD];
        bytes[0] = Call::Fresh as u8;
        for (place, length) in [8, 12, 16].into_iter().zip(lengths) {
            bytes[place..place + 4].copy_from_slice(&length.to_le_bytes());
        }
        Head::read(&bytes).is_some()
    }

    #[test]
    fn the_parts_have_one_limit_together() {
        for place in 0..3 {
            let mut lengths = [7; 3];
            lengths[place] = MOST_BYTES - 14;
            assert!(is_read(lengths), "{lengths:?}");
            lengths[place] += 1;
            assert!(!is_read(lengths), "{lengths:?}");
        }
        let past_32_bits = [[u32::MAX; 3], [u32::MAX, 1, 0], [1 << 31, 96, 1 << 31]];
        for lengths in past_32_bits {
            assert!(!is_read(lengths), "{lengths:?}");
        }
    }
}
