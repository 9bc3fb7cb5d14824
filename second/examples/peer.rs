//! Answers frames with second's own library: `compare` tried against itself.

use std::io;

fn main() -> io::Result<()> {
    let answer = second::answer::answer;
    second::replay::serve(io::stdin().lock(), io::stdout().lock(), answer)
}
