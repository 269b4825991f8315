//! The reading's MD5 against md5sum, where that is at hand. Without a harness,
//! so that what was run, or skipped, is always said.

use std::path::{Path, PathBuf};
use std::process::{Command, ExitCode};
use std::{env, fs, io, process};

use lists::rng::Rng;
use reading::md5::md5;

const MESSAGES: usize = 1000;
const LONGEST: usize = 4500;
const EDGES: [usize; 13] = [0, 1, 55, 56, 57, 63, 64, 65, 119, 120, 127, 128, 4096];

/// A directory for as long as this stands.
struct Directory(PathBuf);

impl Directory {
    fn new() -> io::Result<Self> {
        let path = Path::new(env!("CARGO_TARGET_TMPDIR")).join(format!("md5sum.{}", process::id()));
        fs::create_dir_all(&path)?;
        Ok(Self(path))
    }
}

impl Drop for Directory {
    fn drop(&mut self) {
        let _ = fs::remove_dir_all(&self.0);
    }
}

fn main() -> ExitCode {
    let on_path = |directory: PathBuf| directory.join("md5sum").is_file();
    if !env::var_os("PATH").is_some_and(|path| env::split_paths(&path).any(on_path)) {
        println!("SKIPPED: the comparison with md5sum, which is not on PATH.");
        return ExitCode::SUCCESS;
    }
    match compared() {
        Ok(()) => {
            println!("the reading's MD5 and md5sum agree on {MESSAGES} messages");
            ExitCode::SUCCESS
        }
        Err(what) => {
            println!("{what}");
            ExitCode::FAILURE
        }
    }
}

/// One md5sum over a file for each message; it tells them in their order.
fn compared() -> Result<(), String> {
    let messages = messages();
    let directory = Directory::new().map_err(|e| e.to_string())?;
    let names: Vec<String> = (0..MESSAGES).map(|n| format!("{n:04}")).collect();
    for (name, message) in names.iter().zip(&messages) {
        fs::write(directory.0.join(name), message).map_err(|e| format!("{name}: {e}"))?;
    }
    let run = Command::new("md5sum").args(&names).current_dir(&directory.0).output();
    let said = String::from_utf8(run.map_err(|e| e.to_string())?.stdout).unwrap_or_default();
    let expected: Vec<String> =
        names.iter().zip(&messages).map(|(name, message)| line(name, message)).collect();
    match expected.iter().map(String::as_str).zip(said.lines()).find(|(ours, its)| ours != its) {
        Some((ours, its)) => Err(format!("the reading has {ours}, md5sum {its}")),
        None if said.lines().count() != MESSAGES => Err(format!("md5sum said {said:?}")),
        None => Ok(()),
    }
}

/// Of the lengths about a block's edges, then of random ones up to the longest.
fn messages() -> Vec<Vec<u8>> {
    let mut rng = Rng::new(1321);
    let mut message = |n: usize| {
        let length = EDGES.get(n).copied().unwrap_or_else(|| rng.below(LONGEST + 1));
        let mut bytes = vec![0; length];
        rng.fill(&mut bytes);
        bytes
    };
    (0..MESSAGES).map(&mut message).collect()
}

/// As md5sum tells it.
fn line(name: &str, message: &[u8]) -> String {
    let digits: String = md5(message).iter().map(|byte| format!("{byte:02x}")).collect();
    format!("{digits}  {name}")
}
