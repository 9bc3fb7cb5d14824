//! A repository made for one test, with stand-ins for `lines` and for what builds it.

use std::fs;
use std::path::PathBuf;
use std::process::{Command, Output};
use std::sync::MutexGuard;

use crate::folder::fresh_folder;
use crate::stand_in::{alone, stand_in};

/// The built program.
pub const LINES: &str = "crates/lines/out/lines";

pub struct Repository {
    pub home: PathBuf,
    _alone: MutexGuard<'static, ()>,
}

impl Repository {
    /// One in which `lines` is built and does what the script says.
    pub fn new(name: &str, lines: &str) -> Repository {
        let alone = alone();
        let home = fresh_folder(name);
        for folder in ["crates/lines/out", "tools"] {
            fs::create_dir_all(home.join(folder)).unwrap();
        }
        fs::write(home.join(LINES), "").unwrap();
        let repository = Repository {
            home,
            _alone: alone,
        };
        repository.stand_in("tools/program", lines);
        repository.stand_in("tools/build", "echo tools/build is not to be asked; exit 1");
        repository
    }

    pub fn stand_in(&self, tool: &str, script: &str) {
        stand_in(&self.home.join(tool), script);
    }

    pub fn write(&self, name: &str, content: impl AsRef<[u8]>) {
        fs::write(self.home.join(name), content).unwrap();
    }

    /// Explains files of the repository's folder, which is the caller's too.
    pub fn explain(&self, files: &[&str]) -> Output {
        Command::new(env!("CARGO_BIN_EXE_packer"))
            .arg("explain")
            .args(files)
            .current_dir(&self.home)
            .env("WETHERSTEP", &self.home)
            .output()
            .unwrap()
    }
}

/// Status, standard output and standard error.
pub fn told(output: &Output) -> (Option<i32>, String, String) {
    let text = |bytes: &[u8]| String::from_utf8(bytes.to_vec()).unwrap();
    (
        output.status.code(),
        text(&output.stdout),
        text(&output.stderr),
    )
}
