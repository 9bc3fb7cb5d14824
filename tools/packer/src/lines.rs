//! The built program `lines`, asked about a book, and built where it isn't.

use std::env;
use std::io::Write;
use std::path::{Path, PathBuf};
use std::process::{Command, Stdio};
use std::thread;

/// The repository's folder, as tools/book says it.
const HOME: &str = "WETHERSTEP";
/// The statuses of a run that told of each record, or that the book is refused.
const ANSWERED: [i32; 2] = [0, 3];

pub fn ask(book: &[u8]) -> Result<String, String> {
    let home = env::var_os(HOME).map(PathBuf::from);
    let home = home.ok_or("tools/book runs this, since `lines` is found from there")?;
    if !home.join("crates/lines/out/lines").is_file() {
        build(&home)?;
    }
    run(&home, book)
}

/// What stands in its way, tools/build says itself.
fn build(home: &Path) -> Result<(), String> {
    let status = Command::new(home.join("tools/build"))
        .arg("lines")
        .stdin(Stdio::null())
        .status();
    match status {
        Ok(status) if status.success() => Ok(()),
        _ => Err("tools/book: `lines` isn't built".to_string()),
    }
}

fn run(home: &Path, book: &[u8]) -> Result<String, String> {
    let failed = |fault: &dyn std::fmt::Display| format!("tools/book: `lines` failed: {fault}");
    let mut child = Command::new(home.join("tools/program"))
        .arg("lines")
        .stdin(Stdio::piped())
        .stdout(Stdio::piped())
        .spawn()
        .map_err(|fault| failed(&fault))?;
    let input = child.stdin.take();
    let output = thread::scope(|scope| {
        // What isn't taken shows in the answer, so a failure to write needs no words.
        scope.spawn(move || input.map(|mut input| input.write_all(book)));
        child.wait_with_output()
    });
    let output = output.map_err(|fault| failed(&fault))?;
    if !output
        .status
        .code()
        .is_some_and(|code| ANSWERED.contains(&code))
    {
        return Err(failed(&output.status));
    }
    String::from_utf8(output.stdout).map_err(|fault| failed(&fault))
}
