//! Where the output goes.

use crate::failure::Failure;
use std::fs::File;
use std::io::{self, BufWriter, Write};
use std::path::Path;

/// Has the output written, to a file or to standard output. A reader that has seen enough, such as `head`, is no failure; then there is no
/// result.
pub fn written<T>(output: Option<&Path>, write: impl FnOnce(&mut dyn Write) -> io::Result<T>) -> Result<Option<T>, Failure> {
    match open(output).and_then(|mut out| write(&mut out).and_then(|result| out.flush().map(|()| result))) {
        Ok(result) => Ok(Some(result)),
        Err(error) if error.kind() == io::ErrorKind::BrokenPipe => Ok(None),
        Err(error) => {
            let place = output.map_or("standard output".to_string(), |path| path.display().to_string());
            Err(Failure::Output(format!("{place} cannot be written: {error}")))
        }
    }
}

fn open(output: Option<&Path>) -> io::Result<Box<dyn Write>> {
    Ok(match output {
        Some(path) => Box::new(BufWriter::new(File::create(path)?)),
        None => Box::new(BufWriter::new(io::stdout().lock())),
    })
}
