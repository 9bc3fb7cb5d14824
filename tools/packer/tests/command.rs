//! The script tools/book, in a repository made for one test: when it builds, what it passes on, and
//! what it says where it can't build. A stand-in for cargo makes a stand-in for the packer.

mod folder;
mod stand_in;

use std::fs;
use std::os::unix::fs::symlink;
use std::path::{Path, PathBuf};
use std::process::{Child, Command, Output, Stdio};
use std::sync::MutexGuard;
use std::thread;
use std::time::Duration;

use folder::fresh_folder;
use stand_in::{alone, stand_in};

/// What the script and the stand-ins call. A PATH of these alone has no cargo.
const TOOLS: [&str; 15] = [
    "bash", "cat", "chmod", "cp", "dirname", "env", "find", "flock", "id", "mkdir", "mv",
    "realpath", "sh", "sleep", "touch",
];

/// A file's time moves in steps of some milliseconds: what is written this much later is newer.
const TICK: Duration = Duration::from_millis(100);

/// Waits, so that runs at once meet, and says where and with what its packer was run.
const CARGO: &str = "\
echo \"$*\" >>\"$BUILDS\"
sleep 0.3
mkdir -p \"$CARGO_TARGET_DIR/release\"
cat >\"$CARGO_TARGET_DIR/release/packer\" <<'END'
#!/usr/bin/env bash
printf '%s|' \"$PWD\" \"$@\"
echo fault >&2
exit 7
END
chmod +x \"$CARGO_TARGET_DIR/release/packer\"
";

/// Knows no cargo-web.
const APT_OF_LATER_DEBIAN: &str = "\
case \"$*\" in
update*) ;;
*cargo-web) exit 100 ;;
*) mv \"${0%/*}/kept\" \"${0%/*}/cargo\" ;;
esac
";

struct Repository {
    home: PathBuf,
    tools: PathBuf,
    _alone: MutexGuard<'static, ()>,
}

impl Repository {
    fn new(name: &str) -> Repository {
        let alone = alone();
        let home = fresh_folder(name);
        let tools = home.join("bin");
        fs::create_dir_all(&tools).unwrap();
        for tool in TOOLS {
            symlink(found(tool), tools.join(tool)).unwrap();
        }
        fs::create_dir_all(home.join("tools/packer/src")).unwrap();
        for source in ["Cargo.toml", "Cargo.lock", "src/main.rs"] {
            fs::write(home.join("tools/packer").join(source), "").unwrap();
        }
        let script = Path::new(env!("CARGO_MANIFEST_DIR")).join("../book");
        fs::copy(script, home.join("tools/book")).unwrap();
        Repository {
            home,
            tools,
            _alone: alone,
        }
    }

    fn stand_in(&self, tool: &str, script: &str) {
        stand_in(&self.tools.join(tool), script);
    }

    fn start(&self, script: &Path) -> Child {
        Command::new(script)
            .args(["pack", "a text", "../book"])
            .current_dir(self.home.join("tools"))
            .env("PATH", &self.tools)
            .env("BUILDS", self.home.join("builds"))
            .stdout(Stdio::piped())
            .stderr(Stdio::piped())
            .spawn()
            .unwrap()
    }

    fn run(&self) -> Output {
        let child = self.start(&self.home.join("tools/book"));
        child.wait_with_output().unwrap()
    }

    fn builds(&self) -> Vec<String> {
        let told = fs::read_to_string(self.home.join("builds")).unwrap_or_default();
        told.lines().map(str::to_string).collect()
    }

    /// The packer's output, error and status, all of which the script leaves alone.
    fn assert_passed_on(&self, ended: &Output) {
        let folder = fs::canonicalize(self.home.join("tools")).unwrap();
        let printed = format!("{}|pack|a text|../book|", folder.display());
        assert_eq!(ended.status.code(), Some(7), "{ended:?}");
        assert_eq!(String::from_utf8_lossy(&ended.stdout), printed);
        assert_eq!(ended.stderr, b"fault\n");
    }

    /// Without a packer nothing is printed, and the last line on standard error starts with these.
    fn assert_stopped(&self, ended: &Output, words: &str) {
        let message = String::from_utf8_lossy(&ended.stderr);
        assert_eq!(ended.status.code(), Some(1), "{message}");
        assert_eq!(ended.stdout, b"", "{message}");
        let last = message.lines().last().unwrap_or_default();
        assert!(
            last.starts_with(&format!("tools/book: {words}")),
            "{message}"
        );
    }
}

fn found(tool: &str) -> PathBuf {
    let path = std::env::var_os("PATH").unwrap();
    let mut places = std::env::split_paths(&path).map(|folder| folder.join(tool));
    places.find(|place| place.is_file()).unwrap()
}

#[test]
fn the_packer_is_built_where_its_sources_have_changed() {
    let repository = Repository::new("built_once");
    repository.stand_in("cargo", CARGO);
    for _ in 0..2 {
        repository.assert_passed_on(&repository.run());
        assert_eq!(repository.builds(), ["build --release --offline --locked"]);
    }
    for (count, source) in [
        (2, "Cargo.toml"),
        (3, "Cargo.lock"),
        (4, "src/main.rs"),
        (5, "src/new.rs"),
    ] {
        thread::sleep(TICK);
        fs::write(
            repository.home.join("tools/packer").join(source),
            "// changed",
        )
        .unwrap();
        repository.assert_passed_on(&repository.run());
        assert_eq!(repository.builds().len(), count, "{source}");
    }
    fs::remove_file(repository.home.join("tools/packer/src/new.rs")).unwrap();
    repository.assert_passed_on(&repository.run());
    assert_eq!(repository.builds().len(), 6, "a source is gone");
}

/// Or the next run would take the program for one built from what was written meanwhile.
#[test]
fn a_source_changed_during_a_build_is_built_next_time() {
    let repository = Repository::new("changed_meanwhile");
    let seconds = TICK.as_secs_f64();
    let cargo = format!("sleep {seconds}; touch src/main.rs\n{CARGO}");
    repository.stand_in("cargo", &cargo);
    repository.run();
    repository.stand_in("cargo", CARGO);
    repository.run();
    repository.assert_passed_on(&repository.run());
    assert_eq!(repository.builds().len(), 2);
}

#[test]
fn of_runs_at_once_one_builds() {
    let repository = Repository::new("at_once");
    repository.stand_in("cargo", CARGO);
    let link = repository.home.join("link");
    symlink("tools/book", &link).unwrap();
    let scripts = [&repository.home.join("tools/book"), &link];
    let runs: Vec<Child> = (0..6).map(|i| repository.start(scripts[i % 2])).collect();
    for run in runs {
        repository.assert_passed_on(&run.wait_with_output().unwrap());
    }
    assert_eq!(repository.builds().len(), 1);
}

#[test]
fn a_failed_build_names_its_log_and_leaves_no_old_packer_to_run() {
    let repository = Repository::new("failed_build");
    repository.stand_in("cargo", CARGO);
    repository.run();
    fs::write(repository.home.join("tools/packer/src/main.rs"), "wrong").unwrap();
    repository.stand_in("cargo", "echo 'error: wrong'; exit 101");
    let home = fs::canonicalize(&repository.home).unwrap();
    let log = home.join("target/packer/build.log");
    let words = format!("the packer isn't built: see {}", log.display());
    repository.assert_stopped(&repository.run(), &words);
    assert_eq!(fs::read_to_string(&log).unwrap(), "error: wrong\n");
}

/// Root gets cargo by the name that this Debian has for it; others are told what to install.
#[test]
fn where_cargo_is_missing_it_is_installed_or_asked_for() {
    let repository = Repository::new("no_cargo");
    let id = Command::new("id").arg("-u").output().unwrap();
    let is_root = id.stdout == b"0\n";
    repository.stand_in("apt-get", "echo no network; exit 100");
    let refusal = if is_root {
        "cargo is missing, and apt-get doesn't install it: see /"
    } else {
        "cargo is missing: install "
    };
    repository.assert_stopped(&repository.run(), refusal);

    repository.stand_in("kept", CARGO);
    repository.stand_in("apt-get", APT_OF_LATER_DEBIAN);
    let ended = repository.run();
    if is_root {
        assert_eq!(ended.status.code(), Some(7), "{ended:?}");
        repository.assert_passed_on(&repository.run());
    } else {
        repository.assert_stopped(&ended, refusal);
    }
}
