//! Links the archive that `tools/host_library.sh` builds.

use std::env;
use std::os::unix::process::parent_id;
use std::path::{Path, PathBuf};

const FOLDER: &str = "EIDERWAGON_LIB_DIR";

fn main() {
    let folder = match env::var_os(FOLDER) {
        Some(named) => where_the_command_runs(Path::new(&named)),
        None => beside_the_crate("../../target/staticlib"),
    };
    let archive = folder.join("libeiderwagon.a");

    println!("cargo:rerun-if-env-changed={FOLDER}");
    println!("cargo:rerun-if-changed={}", archive.display());
    println!("cargo:rustc-link-search=native={}", folder.display());
    println!("cargo:rustc-link-lib=static=eiderwagon");
    // A warning and no failure, since `cargo check` and `cargo doc` do without the archive.
    if !archive.is_file() {
        println!("cargo:warning={} is not there: run tools/host_library.sh", archive.display());
        println!("cargo:warning=or name the archive's folder in {FOLDER}");
    }
}

fn beside_the_crate(folder: &str) -> PathBuf {
    let manifest = env::var_os("CARGO_MANIFEST_DIR").expect("cargo names the crate's folder");
    Path::new(&manifest).join(folder)
}

/// A folder as the one sees it who gives the command. A folder from the root stands for itself.
///
/// Cargo runs this program in the crate's own folder, and says nowhere where it was called. That is
/// asked of cargo's process, this one's parent; where that can't be, of the shell.
fn where_the_command_runs(named: &Path) -> PathBuf {
    if named.is_absolute() {
        return named.to_path_buf();
    }
    // The same name is another folder once the command runs elsewhere.
    println!("cargo:rerun-if-env-changed=PWD");
    let parent = Path::new("/proc").join(parent_id().to_string()).join("cwd");
    let here = parent.read_link().ok().or_else(|| env::var_os("PWD").map(PathBuf::from));
    here.unwrap_or_default().join(named)
}
