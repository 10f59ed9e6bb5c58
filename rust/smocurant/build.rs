//! Finds the archive of the proved library, or has it proved and built.
//!
//! `SMOCURANT_ARCHIVE`, the folder that holds `libsmocurant.a`, comes first. Otherwise the archive is `target/staticlib/libsmocurant.a` of
//! the repository; where there is none, `tools/archive` of the repository proves the library and writes it, which takes some minutes.

use std::env;
use std::fs::File;
use std::io::{BufRead, BufReader, Write};
use std::path::{Path, PathBuf};
use std::process::{Command, Stdio};

const FOLDER_VARIABLE: &str = "SMOCURANT_ARCHIVE";
const ARCHIVE: &str = "libsmocurant.a";

fn main() {
    println!("cargo:rerun-if-changed=build.rs");
    println!("cargo:rerun-if-env-changed={FOLDER_VARIABLE}");
    let folder = match env::var_os(FOLDER_VARIABLE) {
        Some(folder) => PathBuf::from(folder),
        None => folder_of_repository(),
    };
    let archive = folder.join(ARCHIVE);
    if !archive.is_file() {
        fail(&format!("there is no {}", archive.display()));
    }
    println!("cargo:rerun-if-changed={}", archive.display());
    println!("cargo:rustc-link-search=native={}", folder.display());
    println!("cargo:rustc-link-lib=static=smocurant");
}

/// The folder of the repository's archive, which is built if it is not there.
fn folder_of_repository() -> PathBuf {
    let own = PathBuf::from(env::var_os("CARGO_MANIFEST_DIR").expect("cargo sets CARGO_MANIFEST_DIR"));
    let root = own.ancestors().nth(2).expect("the crate stands in rust/smocurant of the repository");
    let folder = root.join("target/staticlib");
    if !folder.join(ARCHIVE).is_file() {
        build(root);
    }
    folder
}

/// Has the library proved, and the archive of what is proved built.
fn build(root: &Path) {
    say("proving and building the library, which takes some minutes: tools/archive");
    let started = Command::new("sh").arg(root.join("tools/archive")).stdout(Stdio::piped()).spawn();
    let mut child = started.unwrap_or_else(|error| {
        fail(&format!("tools/archive cannot be started ({error}); build the archive elsewhere, and set {FOLDER_VARIABLE}"))
    });
    let output = child.stdout.take().expect("the output is piped");
    let lines: Vec<String> = BufReader::new(output).lines().map_while(Result::ok).inspect(|line| say(line)).collect();
    let status = child.wait().unwrap_or_else(|error| fail(&format!("tools/archive was lost: {error}")));
    if !status.success() {
        fail(&format!("tools/archive failed; it needs the Rattle kit's `rt` on the PATH, or set {FOLDER_VARIABLE}:\n{}", lines.join("\n")));
    }
}

/// Cargo shows nothing of a build script until it has ended, so lines for whoever waits go to the terminal, if there is one.
fn say(line: &str) {
    if let Ok(mut terminal) = File::options().write(true).open("/dev/tty") {
        let _ = writeln!(terminal, "\rsmocurant: {line}");
    }
}

fn fail(reason: &str) -> ! {
    eprintln!("smocurant: {reason}");
    std::process::exit(1);
}
