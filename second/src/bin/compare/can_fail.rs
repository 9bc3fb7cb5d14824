//! Each group can fail: wrong programs are caught, and by which groups.

#[macro_use]
mod caught;
mod analysed_gas;
mod anodes;
mod frames;
mod large_books;
mod repeats;

use std::fs;
use std::io::{self, Read, Write};
use std::thread;
use std::time::Duration;

use second::answer::{answer, Answer, Call, Frame};
use second::replay::serve;

use crate::link::Connection;
use crate::run::{Run, Settings};
use crate::wrong_peers;
use crate::{
    books, counts, damage, histories, large_books as large, run_group, run_groups, Group, GROUPS,
};

type Peer = fn(&Frame) -> Answer;

/// Another program within this one, joined by pipes.
fn connect<F>(program: F) -> io::Result<Connection>
where
    F: FnOnce(io::PipeReader, io::PipeWriter) -> io::Result<()> + Send + 'static,
{
    let (their_input, our_output) = io::pipe()?;
    let (our_input, their_output) = io::pipe()?;
    // A wrong program may end with a broken pipe; what it answered counts.
    thread::spawn(move || program(their_input, their_output));
    Ok(Connection {
        input: Box::new(our_output),
        output: Box::new(our_input),
        child: None,
    })
}

fn peer(answering: Peer) -> io::Result<Connection> {
    connect(move |input, output| serve(input, output, answering))
}

fn new_run() -> Run {
    Run::new(Settings {
        asks_left: true,
        patience: Duration::from_secs(20),
        failures_folder: None,
        ..Settings::default()
    })
}

/// Parts of groups, for peers that nothing else in the group could catch, or not as
/// soon.
const PARTS: [(&str, Group); 16] = [
    ("books of analysed gas", books::analysed_gas::run),
    ("books of anodes", books::anodes::run),
    ("books of repeats", books::repeats::run),
    ("full books", books::repeats::full_books),
    ("damaged analysed gas", damage::analysed_gas::run),
    ("damaged hours", damage::repeats::hours),
    ("damaged anodes", damage::repeats::anodes),
    ("wakes over analysed gas", histories::analysed_gas::run),
    ("wakes over repeats", histories::repeats::run),
    ("wakes over full books", histories::repeats::full_books),
    ("lengths of large books", large::lengths::run),
    ("repeats in large books", large::repeats::run),
    ("ledgers of large books", large::ledgers::run),
    ("wakes over large books", large::wakes::run),
    ("checkpoints of another length", large::wakes::foreign),
    ("checkpoints of large books", large::checkpoints::run),
];

/// Those of these groups in which a peer fails. One that it passes runs to its end and
/// shows nothing, so no other is run.
fn caught_by(answering: Peer, names: &[&str]) -> Vec<&'static str> {
    let is_named = |group: &&(&str, Group)| names.contains(&group.0);
    let fails = |&(name, group): &(&'static str, Group)| {
        let mut run = new_run();
        run.settings.most_failures = 1;
        run.settings.keeps_counts = false;
        // What is sent ahead of the first wrong answer is work for nothing.
        run.settings.most_bytes_under_way = 1 << 15;
        run_group(&mut run, name, group, peer(answering));
        (run.failed > 0).then_some(name)
    };
    let groups = GROUPS.iter().chain(&PARTS).filter(is_named);
    groups.filter_map(fails).collect()
}

const ALL: [&str; 5] = ["worked", "books", "damage", "histories", "public-figures"];

#[test]
fn the_right_peer_passes_every_group_and_every_count() {
    let mut run = new_run();
    run_groups(&mut run, || peer(answer));
    counts::tell(&mut run);
    assert_eq!(run.failed, 0);
    assert!(run.passed > 200);
}

/// `replay` doesn't know call 5, so it isn't asked unless that is wanted, and no count
/// of it is missed then.
#[test]
fn a_peer_without_the_records_left_passes_where_they_are_not_asked() {
    let mut run = new_run();
    run.settings.asks_left = false;
    let knows_four = |frame: &Frame| {
        assert_ne!(frame.call, Call::Left);
        answer(frame)
    };
    let (name, group) = GROUPS[0];
    run_group(&mut run, name, group, peer(knows_four));
    assert_eq!(run.failed, 0);
    let subjects = |asks_left| {
        run.counts
            .table(asks_left)
            .into_iter()
            .map(|(name, _)| name)
    };
    let of_left = "records left, number";
    assert!(subjects(true).any(|name| name == of_left));
    assert!(!subjects(false).any(|name| name == of_left));
}

#[test]
fn counts_of_nothing_fail() {
    let mut run = new_run();
    let (name, group) = GROUPS[0];
    run_group(&mut run, name, group, peer(answer));
    assert_eq!(run.failed, 0);
    counts::tell(&mut run);
    assert!(run.failed > 0);
}

#[test]
fn a_frame_that_fails_is_kept() {
    let folder = std::env::temp_dir().join(format!("second-kept-{}", std::process::id()));
    let mut run = new_run();
    run.settings.most_failures = 1;
    run.settings.failures_folder = Some(folder.clone());
    let (name, group) = GROUPS[0];
    run_group(&mut run, name, group, peer(wrong_peers::never_rounds_r_up));
    let kept = fs::read_dir(&folder).expect("it was made").count();
    fs::remove_dir_all(&folder).expect("it is still there");
    assert_eq!(kept, 1);
}

/// How the first group goes with a program that does not keep to the frames.
fn first_group(other: io::Result<Connection>) -> u64 {
    let mut run = new_run();
    run.settings.patience = Duration::from_millis(300);
    let (name, group) = GROUPS[0];
    run_group(&mut run, name, group, other);
    run.failed
}

#[test]
fn a_program_that_ends_early_is_told() {
    let ends = connect(|input, output| serve(input.take(5_000), output, answer));
    assert!(first_group(ends) > 0);
}

#[test]
fn a_program_that_never_answers_is_told_soon() {
    let silent = connect(|mut input, output| {
        io::copy(&mut input, &mut io::sink())?;
        thread::sleep(Duration::from_secs(2));
        drop(output);
        Ok(())
    });
    assert!(first_group(silent) > 0);
}

#[test]
fn once_silent_the_other_groups_are_left_out() {
    let mut run = new_run();
    run.fell_silent = true;
    for (name, group) in GROUPS {
        run_group(&mut run, name, group, peer(answer));
    }
    assert_eq!((run.calls, run.failed), (0, GROUPS.len() as u64));
}

#[test]
fn a_program_that_goes_on_after_its_last_answer_is_told() {
    let talkative = connect(|input, mut output| {
        serve(input, &output, answer)?;
        output.write_all(&[0])
    });
    assert_eq!(first_group(talkative), 1);
}

#[test]
fn a_program_that_cannot_be_started_is_told() {
    let missing = crate::link::start(&["/nowhere/replay".to_string()]);
    assert_eq!(first_group(missing), 1);
}
