//! `compare [--long] [--seed N] [--left] [--keep FOLDER] -- COMMAND ARGS..`:
//! drives a program that speaks the frames of `replay`, with --left also those
//! of call 5, and compares every answer with second's. Frames that fail are
//! kept in FOLDER.

mod bits;
mod books;
#[cfg(test)]
mod can_fail;
mod counts;
mod damage;
mod draft;
mod exact;
mod exchange;
mod expectation;
mod frames;
mod histories;
mod job;
mod large_books;
mod link;
mod molar_halves;
mod near_halves;
mod public_figures;
mod random;
mod random_books;
mod repeats;
mod run;
mod sample;
mod specials;
mod warming;
mod worked;
#[cfg(test)]
mod wrong_peers;

use std::io;
use std::process::ExitCode;
use std::time::Instant;

use exchange::{Exchange, Outcome};
use link::Connection;
use random::Random;
use run::{Run, Settings};

const USAGE: &str = "usage: compare [--long] [--seed N] [--left] [--keep FOLDER] -- COMMAND ARGS..";
const LONG: usize = 25;

type Group = fn(&mut Exchange, &mut Random) -> Outcome<()>;

const GROUPS: [(&str, Group); 7] = [
    ("worked", worked::run),
    ("books", books::run),
    ("damage", damage::run),
    ("histories", histories::run),
    ("public-figures", public_figures::run),
    ("large-books", large_books::run),
    ("frames", frames::run),
];

fn main() -> ExitCode {
    let arguments: Vec<String> = std::env::args().skip(1).collect();
    let Some((settings, command)) = parse(&arguments) else {
        eprintln!("{USAGE}");
        return ExitCode::from(2);
    };
    println!("seed {}", settings.seed);
    let begun = Instant::now();
    let mut run = Run::new(settings);
    run_groups(&mut run, || link::start(command));
    counts::tell(&mut run);
    let seconds = begun.elapsed().as_secs_f32();
    println!("{} calls compared in {seconds:.1} s", run.calls);
    println!("{} passed, {} failed", run.passed, run.failed);
    ExitCode::from(u8::from(run.failed > 0))
}

fn parse(arguments: &[String]) -> Option<(Settings, &[String])> {
    let mut settings = Settings::default();
    let mut rest = arguments;
    loop {
        rest = match rest {
            [option, after @ ..] if option == "--long" => {
                settings.times = LONG;
                after
            }
            [option, seed, after @ ..] if option == "--seed" => {
                settings.seed = seed.parse().ok()?;
                after
            }
            [option, after @ ..] if option == "--left" => {
                settings.asks_left = true;
                after
            }
            [option, folder, after @ ..] if option == "--keep" => {
                settings.failures_folder = Some(folder.into());
                after
            }
            [end, command @ ..] if end == "--" && !command.is_empty() => {
                return Some((settings, command));
            }
            _ => return None,
        }
    }
}

/// Every group begins with the other program started anew, so that a group
/// that fails leaves the next one undisturbed. A head that it stops at ends a
/// group.
fn run_groups(run: &mut Run, start: impl Fn() -> io::Result<Connection>) {
    for (name, group) in GROUPS {
        run_group(run, name, group, start());
    }
    for stop in &frames::STOPS {
        let group = |exchange: &mut Exchange, _: &mut Random| stop.run(exchange);
        run_group(run, "frames", group, start());
    }
}

fn run_group(
    run: &mut Run,
    name: &'static str,
    group: impl FnOnce(&mut Exchange, &mut Random) -> Outcome<()>,
    other: io::Result<Connection>,
) {
    if run.fell_silent {
        let remark = ": left out, for it fell silent before";
        return run.tell(name, "the other program answers", false, remark);
    }
    match other {
        Ok(connection) => {
            let mut rng = Random::new(run.settings.seed);
            let mut exchange = Exchange::new(run, name, connection);
            let ran = group(&mut exchange, &mut rng);
            exchange.finish(ran);
        }
        Err(error) => {
            let remark = format!(": {error}");
            run.tell(name, "the other program starts", false, &remark);
        }
    }
}

#[cfg(test)]
mod tests {
    use super::*;

    fn parsed(line: &str) -> Option<(Settings, Vec<String>)> {
        let arguments: Vec<String> = line.split(' ').map(String::from).collect();
        parse(&arguments).map(|(settings, command)| (settings, command.to_vec()))
    }

    #[test]
    fn arguments_are_options_then_a_command() {
        let command = vec!["replay".to_string(), "--long".to_string()];
        let plain = parsed("-- replay --long");
        assert_eq!(plain, Some((Settings::default(), command.clone())));
        let all = parsed("--keep kept --left --seed 7 --long -- replay --long");
        let settings = Settings {
            seed: 7,
            times: LONG,
            asks_left: true,
            failures_folder: Some("kept".into()),
            ..Settings::default()
        };
        assert_eq!(all, Some((settings, command)));
        for wrong in [
            "replay",
            "--",
            "--seed x -- replay",
            "--short -- replay",
            "--keep",
        ] {
            assert_eq!(parsed(wrong), None, "{wrong}");
        }
    }
}
