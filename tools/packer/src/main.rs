//! The program that tools/book runs: a text packed into a book, a book unpacked into its text, and
//! what is wrong with a book explained.

mod files;
mod lines;

use std::env;
use std::fs;
use std::io::{self, Write};
use std::path::Path;
use std::process::ExitCode;

use packer::Named;

const USAGE: &str = "\
usage: tools/book pack TEXT BOOK         packs a text into a book
       tools/book unpack BOOK TEXT       unpacks a book into its text
       tools/book explain BOOK [TEXT]    says which records are set aside, why, and what to do
";
const DONE: u8 = 0;
const FAILED: u8 = 1;
const WRONG_ARGUMENTS: u8 = 2;
/// The book is refused, or some record is set aside.
const AT_FAULT: u8 = 3;

fn main() -> ExitCode {
    let arguments: Vec<_> = env::args_os().skip(1).collect();
    let verb = arguments.first().and_then(|verb| verb.to_str());
    let ended = match (verb, arguments.as_slice()) {
        (Some("--help"), [_]) => print(USAGE).map(|()| DONE),
        (Some("pack"), [_, text, book]) => turn(text.as_ref(), book.as_ref(), pack),
        (Some("unpack"), [_, book, text]) => turn(book.as_ref(), text.as_ref(), unpack),
        (Some("explain"), [_, book]) => explain(book.as_ref(), None),
        (Some("explain"), [_, book, text]) => explain(book.as_ref(), Some(text.as_ref())),
        _ => {
            eprint!("{USAGE}");
            Ok(WRONG_ARGUMENTS)
        }
    };
    ExitCode::from(ended.unwrap_or_else(|message| {
        eprintln!("{message}");
        FAILED
    }))
}

fn print(words: &str) -> Result<(), String> {
    let mut out = io::stdout();
    out.write_all(words.as_bytes())
        .and_then(|()| out.flush())
        .map_err(|fault| format!("standard output: {fault}"))
}

/// Gives the content of the new file, or one line that says what is wrong with the old one.
type Convert = fn(&Path, &[u8]) -> Result<Vec<u8>, String>;

fn pack(path: &Path, text: &[u8]) -> Result<Vec<u8>, String> {
    packer::pack(text)
        .map_err(|fault| format!("{}:{}: {}", path.display(), fault.line, fault.message))
}

fn unpack(path: &Path, bytes: &[u8]) -> Result<Vec<u8>, String> {
    let text = packer::unpack(bytes).map_err(|refusal| format!("{}: {refusal}", path.display()))?;
    Ok(text.into_bytes())
}

fn turn(from: &Path, to: &Path, convert: Convert) -> Result<u8, String> {
    let output = convert(from, &read(from)?)?;
    files::check_apart(from, to)
        .and_then(|()| files::replace(to, &output))
        .map_err(|fault| format!("{}: {fault}", to.display()))?;
    Ok(DONE)
}

fn explain(book: &Path, text: Option<&Path>) -> Result<u8, String> {
    let named = |path: &Path| {
        let name = path.display().to_string();
        read(path).map(|content| Named { name, content })
    };
    let text = text.map(named).transpose()?;
    let explanation = packer::explain(&named(book)?, text.as_ref(), lines::ask)?;
    print(&explanation.words)?;
    Ok(if explanation.is_clean { DONE } else { AT_FAULT })
}

fn read(path: &Path) -> Result<Vec<u8>, String> {
    fs::read(path).map_err(|fault| format!("{}: {fault}", path.display()))
}
