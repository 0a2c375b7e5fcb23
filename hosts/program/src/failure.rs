//! Why a command came to nothing, in one sentence for the person who gave it.

use crate::output::say;
use std::fmt;
use std::io;
use std::path::Path;

/// A sentence that names the file, the place and what was expected.
#[derive(Clone, Debug)]
pub struct Failure(String);

pub type Outcome<T> = Result<T, Failure>;

impl Failure {
    pub fn new(sentence: impl Into<String>) -> Self {
        Failure(sentence.into())
    }

    /// What went wrong with a file.
    pub fn of(file: &str, what: impl fmt::Display) -> Self {
        Failure(format!("{file}: {what}"))
    }

    /// What the system said of a file.
    pub fn system(file: &str, error: &io::Error) -> Self {
        let words = error.to_string();
        // Rust adds the number, which says nothing to a person who has the words.
        let words = words.split(" (os error").next().unwrap_or(&words);
        Failure(format!("{file}: {words}"))
    }
}

impl fmt::Display for Failure {
    fn fmt(&self, f: &mut fmt::Formatter<'_>) -> fmt::Result {
        f.write_str(&self.0)
    }
}

/// Nothing, or the last of some failures; those before it are said.
pub fn conclude(mut failures: Vec<Failure>) -> Outcome<()> {
    let Some(last) = failures.pop() else { return Ok(()) };
    for failure in failures {
        say(&failure.to_string());
    }
    Err(last)
}

/// Whether a name is standard input's, or standard output's.
pub fn is_standard(path: &Path) -> bool {
    path == Path::new("-")
}

/// How a file is named to a person.
pub fn name_of(path: &Path) -> String {
    if is_standard(path) {
        "standard input".into()
    } else {
        path.display().to_string()
    }
}

/// `1 frame`, `2 frames`.
pub fn counted(count: u64, one: &str, more: &str) -> String {
    if count == 1 {
        format!("1 {one}")
    } else {
        format!("{count} {more}")
    }
}
