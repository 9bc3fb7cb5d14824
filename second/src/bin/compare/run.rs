//! One run of all groups: its settings, and what it has found so far.

use std::path::PathBuf;
use std::time::Duration;

use crate::counts::Counts;

pub const DEFAULT_SEED: u64 = 20_100_401;

#[derive(Debug, PartialEq)]
pub struct Settings {
    pub seed: u64,
    /// Random cases are run this many times over.
    pub times: usize,
    /// The other program knows call 5, the records left.
    pub asks_left: bool,
    /// How long the other program may be silent.
    pub patience: Duration,
    /// A group goes no further after so many.
    pub most_failures: u32,
    /// Bytes that may be under way before an answer is waited for.
    pub most_bytes_under_way: usize,
    /// What was compared is counted; a run that is to fail needs no counts.
    pub keeps_counts: bool,
    /// Where frames that fail are kept; a run that is to fail needs none of them.
    pub failures_folder: Option<PathBuf>,
}

impl Default for Settings {
    fn default() -> Settings {
        Settings {
            seed: DEFAULT_SEED,
            times: 1,
            asks_left: false,
            patience: Duration::from_secs(60),
            most_failures: 10,
            most_bytes_under_way: 16 << 20,
            keeps_counts: true,
            failures_folder: Some(PathBuf::from("target/second-failures")),
        }
    }
}

pub struct Run {
    pub settings: Settings,
    pub counts: Counts,
    pub calls: u64,
    pub passed: u64,
    pub failed: u64,
    /// The other program stopped answering; waiting again would only take
    /// as long again.
    pub fell_silent: bool,
}

impl Run {
    pub fn new(settings: Settings) -> Run {
        Run {
            settings,
            counts: Counts::default(),
            calls: 0,
            passed: 0,
            failed: 0,
            fell_silent: false,
        }
    }

    /// One named check is done.
    pub fn tell(&mut self, group: &str, name: &str, good: bool, remark: &str) {
        let verdict = if good { "ok    " } else { "FAILED" };
        println!("{verdict} {group}: {name}{remark}");
        if good {
            self.passed += 1;
        } else {
            self.failed += 1;
        }
    }
}
