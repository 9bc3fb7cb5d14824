//! The program run on files of a folder made for one test.

use std::fs;
use std::path::Path;
use std::process::Command;

pub struct Ended {
    pub status: Option<i32>,
    pub printed: String,
    pub message: String,
}

pub fn run(arguments: &[&Path]) -> Ended {
    let program = env!("CARGO_BIN_EXE_packer");
    let output = Command::new(program).args(arguments).output().unwrap();
    Ended {
        status: output.status.code(),
        printed: String::from_utf8(output.stdout).unwrap(),
        message: String::from_utf8(output.stderr).unwrap(),
    }
}

/// Runs the verb on a bad input, without an output file and with one, which must stay as they are.
/// Gives the one line of the message, without the input's path.
pub fn refused(folder: &Path, verb: &str, input: &[u8]) -> String {
    let (from, to) = (folder.join("input"), folder.join("output"));
    fs::write(&from, input).unwrap();
    let arguments = [Path::new(verb), &from, &to];

    let without = run(&arguments);
    assert_eq!(without.status, Some(1), "{}", without.message);
    assert_eq!(without.printed, "");
    assert_eq!(names_in(folder), ["input"], "{}", without.message);

    fs::write(&to, "what was there").unwrap();
    let with = run(&arguments);
    assert_eq!(with.status, Some(1), "{}", with.message);
    assert_eq!(with.message, without.message);
    assert_eq!(fs::read(&to).unwrap(), b"what was there");
    assert_eq!(names_in(folder), ["input", "output"], "{}", with.message);
    fs::remove_file(&to).unwrap();

    let message = with.message.strip_suffix('\n').unwrap();
    assert!(!message.contains('\n'), "more than a line: {message}");
    let after_path = message.strip_prefix(from.to_str().unwrap());
    after_path.unwrap().to_string()
}

pub fn names_in(folder: &Path) -> Vec<String> {
    let entries = fs::read_dir(folder).unwrap();
    let mut names: Vec<_> = entries
        .map(|entry| entry.unwrap().file_name().into_string().unwrap())
        .collect();
    names.sort();
    names
}
