//! A day's source. It is read twice: first for the size of its keys, then for its calls.

use crate::progress::Watched;
use std::ffi::OsStr;
use std::fs::{self, File, OpenOptions};
use std::io::{self, BufReader, Read, Seek};
use std::path::Path;
use std::time::{SystemTime, UNIX_EPOCH};

pub struct Source {
    file: File,
}

impl Source {
    /// The file, or standard input for `-`.
    pub fn open(day: &OsStr) -> io::Result<Self> {
        if day == "-" {
            return kept(&mut io::stdin().lock());
        }
        let mut file = File::open(day)?;
        if file.metadata()?.is_file() {
            Ok(Self { file })
        } else {
            kept(&mut file)
        }
    }

    /// All of it, from its beginning.
    pub fn read(&mut self, doing: &'static str) -> io::Result<Watched<BufReader<&File>>> {
        self.file.rewind()?;
        let length = self.file.metadata()?.len();
        Ok(Watched::new(BufReader::with_capacity(1 << 16, &self.file), doing, length))
    }
}

/// What can be read only once, in a file that ends with the program.
fn kept(source: &mut impl Read) -> io::Result<Source> {
    let directory = std::env::temp_dir();
    let mut file = unnamed(&directory).map_err(|e| {
        let what = format!("cannot be kept in {} to be read twice: {e}", directory.display());
        io::Error::new(e.kind(), what)
    })?;
    io::copy(source, &mut file)?;
    Ok(Source { file })
}

/// A file that nobody else can open: its name is gone before anything is in it.
fn unnamed(directory: &Path) -> io::Result<File> {
    let now = SystemTime::now().duration_since(UNIX_EPOCH).unwrap_or_default();
    let path = directory.join(format!("demo-{}-{}", std::process::id(), now.as_nanos()));
    let mut options = OpenOptions::new();
    options.read(true).write(true).create_new(true);
    #[cfg(unix)]
    std::os::unix::fs::OpenOptionsExt::mode(&mut options, 0o600);
    let file = options.open(&path)?;
    fs::remove_file(&path)?;
    Ok(file)
}
