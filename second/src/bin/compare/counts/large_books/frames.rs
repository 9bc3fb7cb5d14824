//! What was compared of the lengths of frames: those that are answered, and those that
//! stop the other program.

use second::bytes::u32_at;
use second::replay::{FRAME_HEAD, MOST_BYTES};

use super::super::Rows;

const CALLS: [&str; 4] = ["fresh", "wake", "report", "one record"];
const PARTS: [&str; 3] = ["book", "checkpoint", "output buffer"];
/// What a part had room for once, whatever the others were.
const ONCE_MOST: u32 = 131_072;

#[derive(Default)]
pub struct FrameCounts {
    /// As long as may be, by the longest part and call.
    longest: [[u64; CALLS.len()]; PARTS.len()],
    /// By part.
    long_parts: [u64; PARTS.len()],
    /// One byte past the limit, by the longest part.
    stops: [u64; PARTS.len()],
    /// Further past it than 32 bits hold.
    wrapped: u64,
    /// With another frame behind it.
    followed: u64,
}

fn lengths(head: &[u8]) -> [u32; 3] {
    [8, 12, 16].map(|place| u32_at(head, place))
}

fn together(lengths: [u32; 3]) -> u64 {
    lengths.into_iter().map(u64::from).sum()
}

fn longest(lengths: [u32; 3]) -> usize {
    let places = 0..PARTS.len();
    places
        .max_by_key(|&place| lengths[place])
        .expect("there are three parts")
}

impl FrameCounts {
    pub fn count(&mut self, frame: &[u8]) {
        let lengths = lengths(frame);
        if together(lengths) == u64::from(MOST_BYTES) {
            self.longest[longest(lengths)][usize::from(frame[0]) - 1] += 1;
        }
        for (count, length) in self.long_parts.iter_mut().zip(lengths) {
            *count += u64::from(length > ONCE_MOST);
        }
    }

    pub fn count_stop(&mut self, bytes: &[u8]) {
        let lengths = lengths(bytes);
        if together(lengths) == u64::from(MOST_BYTES) + 1 {
            self.stops[longest(lengths)] += 1;
        }
        self.wrapped += u64::from(together(lengths) > u64::from(u32::MAX));
        self.followed += u64::from(bytes.len() as u64 > FRAME_HEAD as u64 + together(lengths));
    }

    pub fn table(&self) -> Vec<(&'static str, Rows)> {
        let mut longest = Vec::new();
        for (part, by_call) in PARTS.iter().zip(self.longest) {
            for (call, count) in CALLS.iter().zip(by_call) {
                longest.push((format!("mostly {part}, {call}"), count));
            }
        }
        let parts = || PARTS.into_iter().map(String::from);
        let others = [
            ("past 32 bits".to_string(), self.wrapped),
            ("with a frame behind it".to_string(), self.followed),
        ];
        vec![
            ("frame of 5,242,880 bytes,", longest),
            (
                "more than 131,072 bytes of",
                parts().zip(self.long_parts).collect(),
            ),
            (
                "stop at 5,242,881 bytes, mostly",
                parts().zip(self.stops).collect(),
            ),
            ("stop at a frame", others.into()),
        ]
    }
}

#[cfg(test)]
mod tests {
    use super::*;
    use crate::draft::put;

    fn head(lengths: [u32; 3]) -> [u8; FRAME_HEAD] {
        let mut head = [0; FRAME_HEAD];
        head[0] = 1;
        for (place, length) in [8, 12, 16].into_iter().zip(lengths) {
            put(&mut head, place, &length.to_le_bytes());
        }
        head
    }

    #[test]
    fn frames_are_told_by_their_longest_part() {
        let mut counts = FrameCounts::default();
        counts.count(&head([96, MOST_BYTES - 192, 96]));
        counts.count(&head([96, MOST_BYTES - 193, 96]));
        assert_eq!(counts.longest, [[0; 4], [1, 0, 0, 0], [0; 4]]);
        assert_eq!(counts.long_parts, [0, 2, 0]);
    }

    #[test]
    fn stops_are_told_by_how_far_they_pass_the_limit() {
        let mut counts = FrameCounts::default();
        counts.count_stop(&head([0, 0, MOST_BYTES + 1]));
        counts.count_stop(&head([u32::MAX, 1, 0]));
        assert_eq!((counts.stops, counts.wrapped), ([0, 0, 1], 1));
        assert_eq!(counts.followed, 0);
        let mut bytes = head([MOST_BYTES + 1, 0, 0]).to_vec();
        bytes.resize(2 * FRAME_HEAD + MOST_BYTES as usize + 1, 0);
        counts.count_stop(&bytes);
        assert_eq!(counts.followed, 1);
    }
}
