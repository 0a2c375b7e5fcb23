//! What the tests share: the program as a person runs it, files of their own, feeds and pcaps.

pub mod feed;
pub mod frames;
pub mod pcap;

use std::fs;
use std::io::Write;
use std::path::{Path, PathBuf};
use std::process::{Command, Output, Stdio};
use std::sync::atomic::{AtomicU32, Ordering};

pub const NAME: &str = "READROOM01";

/// A folder for one test, which goes away with it.
pub struct Folder(PathBuf);

impl Folder {
    pub fn new() -> Self {
        static NEXT: AtomicU32 = AtomicU32::new(0);
        let number = NEXT.fetch_add(1, Ordering::Relaxed);
        let folder = format!("eiderwagon-{}-{number}", std::process::id());
        let path = std::env::temp_dir().join(folder);
        // a run that was killed may have had the same number
        let _ = fs::remove_dir_all(&path);
        fs::create_dir_all(&path).unwrap();
        Folder(path)
    }

    pub fn path(&self, name: &str) -> PathBuf {
        self.0.join(name)
    }

    /// Writes a file, and gives its path.
    pub fn write(&self, name: &str, bytes: &[u8]) -> PathBuf {
        let path = self.path(name);
        fs::write(&path, bytes).unwrap();
        path
    }

    /// The names of its files.
    pub fn names(&self) -> Vec<String> {
        let files = fs::read_dir(&self.0).unwrap();
        let mut names: Vec<String> =
            files.map(|file| file.unwrap().file_name().into_string().unwrap()).collect();
        names.sort();
        names
    }
}

impl Drop for Folder {
    fn drop(&mut self) {
        let _ = fs::remove_dir_all(&self.0);
    }
}

/// What a run of the program gave.
pub struct Ran {
    pub status: i32,
    pub out: Vec<u8>,
    pub err: String,
}

impl Ran {
    pub fn of(output: Output) -> Self {
        let err = String::from_utf8(output.stderr).unwrap();
        // without a status it was ended by a signal; 101 is a panic's
        let status = output.status.code().unwrap_or_else(|| panic!("it crashed: {err}"));
        assert_ne!(status, 101, "{err}");
        Ran { status, out: output.stdout, err }
    }

    pub fn text(&self) -> String {
        String::from_utf8(self.out.clone()).unwrap()
    }
}

pub fn program() -> Command {
    let mut command = Command::new(env!("CARGO_BIN_EXE_eiderwagon"));
    command.stdin(Stdio::null());
    command
}

pub fn run<A: AsRef<std::ffi::OsStr>>(arguments: &[A]) -> Ran {
    Ran::of(program().args(arguments).output().unwrap())
}

/// Runs with bytes on standard input, by a pipe.
pub fn run_with(bytes: &[u8], arguments: &[&str]) -> Ran {
    piped(program().args(arguments), bytes)
}

pub fn piped(command: &mut Command, bytes: &[u8]) -> Ran {
    let pipes = command.stdin(Stdio::piped()).stdout(Stdio::piped()).stderr(Stdio::piped());
    let mut child = pipes.spawn().unwrap();
    let mut to = child.stdin.take().unwrap();
    let bytes = bytes.to_vec();
    // a program that has read enough closes its end
    let writer = std::thread::spawn(move || drop(to.write_all(&bytes)));
    let output = child.wait_with_output().unwrap();
    writer.join().unwrap();
    Ran::of(output)
}

pub fn repository() -> PathBuf {
    Path::new(env!("CARGO_MANIFEST_DIR")).join("../..")
}

/// Whether a program is installed that a test compares with; its absence is said, not passed over.
pub fn has(program: &str) -> bool {
    let found = Command::new("sh").args(["-c", &format!("command -v {program}")]).output();
    let is_there = found.is_ok_and(|found| found.status.success());
    if !is_there {
        // a test that passes has its printed lines hidden, but not these
        let _ = writeln!(std::io::stderr(), "{program} isn't installed: nothing is tried with it");
    }
    is_there
}
