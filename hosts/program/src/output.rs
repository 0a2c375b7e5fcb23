//! What a command writes, which is whole or an error.

use crate::failure::{is_standard, Failure, Outcome};
use std::fs::{self, File, Metadata};
use std::io::{self, IsTerminal, Write};
use std::os::fd::AsFd;
use std::os::unix::fs::MetadataExt;
use std::path::{Path, PathBuf};

const STANDARD: &str = "standard output";

/// Standard output as the system has it: Rust's own takes no notice of one that can't be written.
fn standard() -> Outcome<File> {
    let descriptor = io::stdout().as_fd().try_clone_to_owned();
    descriptor.map(File::from).map_err(|error| Failure::system(STANDARD, &error))
}

/// Prints on standard output.
pub fn print(text: &str) -> Outcome<()> {
    standard()?.write_all(text.as_bytes()).map_err(|error| Failure::system(STANDARD, &error))
}

/// Says something on standard error, which is lost where that is closed.
pub fn say(sentence: &str) {
    let _ = writeln!(io::stderr(), "eiderwagon: {sentence}");
}

/// Where bytes go: a file, which has its name once it is whole, or standard output.
pub struct Output {
    to: File,
    name: String,
    /// The file as it is written, and as it is called then.
    renames: Option<(PathBuf, PathBuf)>,
}

impl Output {
    /// A file that isn't one of those that are read.
    pub fn file(path: &Path, inputs: &[PathBuf]) -> Outcome<Self> {
        let name = path.display().to_string();
        let failed = |error: io::Error| Failure::system(&name, &error);
        let there = path.metadata().ok();
        if let Some(there) = &there {
            if inputs.iter().any(|input| is_same(there, input)) {
                return Err(Failure::of(&name, "is read here, and another file was expected"));
            }
            // a pipe or a device is written as it is
            if !there.is_file() {
                let to = File::options().write(true).open(path).map_err(failed)?;
                return Ok(Output { to, name, renames: None });
            }
        }
        // what a link leads to is replaced, not the link
        let path = path.canonicalize().unwrap_or_else(|_| path.to_path_buf());
        let beside = beside(&path);
        let to = File::options().write(true).create_new(true).open(&beside).map_err(failed)?;
        let output = Output { to, name: name.clone(), renames: Some((beside, path)) };
        if let Some(there) = there {
            output.to.set_permissions(there.permissions()).map_err(failed)?;
        }
        Ok(output)
    }

    /// Standard output, for bytes that a terminal can't show.
    pub fn standard() -> Outcome<Self> {
        let to = standard()?;
        if to.is_terminal() {
            return Err(Failure::of(STANDARD, "is a terminal: name a file with -o, or use a pipe"));
        }
        Ok(Output { to, name: STANDARD.into(), renames: None })
    }

    pub fn write(&mut self, bytes: &[u8]) -> Outcome<()> {
        self.to.write_all(bytes).map_err(|error| Failure::system(&self.name, &error))
    }

    /// Ends it: only now the file has its name. A disk may say only here that it is full.
    pub fn finish(mut self) -> Outcome<()> {
        if let Some((beside, path)) = self.renames.take() {
            let done = self.to.sync_all().and_then(|()| fs::rename(&beside, path));
            done.map_err(|error| {
                let _ = fs::remove_file(&beside);
                Failure::system(&self.name, &error)
            })?;
        }
        Ok(())
    }
}

impl Drop for Output {
    /// A file that isn't whole goes away.
    fn drop(&mut self) {
        if let Some((beside, _)) = &self.renames {
            let _ = fs::remove_file(beside);
        }
    }
}

fn is_same(there: &Metadata, input: &Path) -> bool {
    let input = if is_standard(input) {
        io::stdin().as_fd().try_clone_to_owned().and_then(|fd| File::from(fd).metadata())
    } else {
        input.metadata()
    };
    input.is_ok_and(|input| (input.dev(), input.ino()) == (there.dev(), there.ino()))
}

/// A name beside a file, for as long as it isn't whole.
fn beside(path: &Path) -> PathBuf {
    let mut name = path.as_os_str().to_owned();
    name.push(format!(".{}.part", std::process::id()));
    PathBuf::from(name)
}
