//! The files that are read.

use crate::complaint::Complaint;
use std::fs;
use std::io::{self, Read};
use std::path::{Path, PathBuf};

/// A text is read up to one byte over what the library takes, so that it can say so.
const MOST_BYTES: u64 = 65_537;

/// Where an event or a sheet comes from.
pub enum Source {
    /// A file.
    File(PathBuf),
    /// Standard input.
    Input,
}

impl Source {
    /// The one that a word of the command line names.
    pub fn named(word: &str) -> Source {
        if word == "-" {
            Source::Input
        } else {
            Source::File(word.into())
        }
    }

    /// What it is called in the output.
    pub fn name(&self) -> String {
        match self {
            Source::File(path) => path.display().to_string(),
            Source::Input => "-".to_string(),
        }
    }

    /// Says what is wrong with it.
    pub fn complain(&self, complaint: &Complaint) {
        eprintln!("smocurant: {}", complaint.told(&self.name()));
    }

    /// The event's text.
    pub fn text(&self) -> io::Result<Vec<u8>> {
        self.read(MOST_BYTES)
    }

    /// The bytes of a sheet, however long it is.
    pub fn sheet(&self) -> io::Result<Vec<u8>> {
        self.read(u64::MAX)
    }

    fn read(&self, most: u64) -> io::Result<Vec<u8>> {
        let mut bytes = Vec::new();
        match self {
            Source::File(path) => fs::File::open(path)?.take(most).read_to_end(&mut bytes)?,
            Source::Input => io::stdin().lock().take(most).read_to_end(&mut bytes)?,
        };
        Ok(bytes)
    }
}

/// The events that the words of the command line mean, and how many words came to nothing, which is said.
pub fn all_sources(words: &[String]) -> (Vec<Source>, usize) {
    let mut all = Vec::new();
    let mut unreadable = 0;
    for word in words {
        match sources(word) {
            Ok(found) => all.extend(found),
            Err(complaint) => {
                unreadable += 1;
                eprintln!("smocurant: {complaint}");
            }
        }
    }
    (all, unreadable)
}

/// The events that a word of the command line means; a folder means its `*.json` files by name.
fn sources(word: &str) -> Result<Vec<Source>, String> {
    let path = Path::new(word);
    if word == "-" || !path.is_dir() {
        return Ok(vec![Source::named(word)]);
    }
    let entries = fs::read_dir(path).map_err(|error| format!("{word}: the folder cannot be read: {error}"))?;
    let is_event = |path: &PathBuf| path.extension().is_some_and(|extension| extension == "json") && path.is_file();
    let mut files: Vec<PathBuf> = entries.flatten().map(|entry| entry.path()).filter(is_event).collect();
    if files.is_empty() {
        return Err(format!("{word}: the folder has no *.json files"));
    }
    files.sort();
    Ok(files.into_iter().map(Source::File).collect())
}
