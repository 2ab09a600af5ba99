//! Files and standard input.

use std::ffi::OsString;
use std::fs::File;
use std::io::{self, Read};

use introspection::LIMIT;

use crate::paint::plain;
use crate::{tell, Status};

pub enum Input {
    File(OsString),
    Standard,
}

impl Input {
    /// How it is named in front of a place.
    pub fn name(&self) -> String {
        match self {
            Input::File(path) => plain(&path.to_string_lossy()),
            Input::Standard => "<stdin>".to_string(),
        }
    }

    /// All of it, or one byte more than a document may have. That it cannot be read is told.
    pub fn read(&self) -> Result<Vec<u8>, Status> {
        let mut bytes = Vec::new();
        let most = LIMIT as u64 + 1;
        let answer = match self {
            Input::File(path) => {
                File::open(path).and_then(|file| file.take(most).read_to_end(&mut bytes))
            }
            Input::Standard => io::stdin().take(most).read_to_end(&mut bytes),
        };
        match answer {
            Ok(_) => Ok(bytes),
            Err(error) => Err(tell(&format!(
                "cannot read {}: {}",
                self.in_words(),
                reason(&error)
            ))),
        }
    }

    fn in_words(&self) -> String {
        match self {
            Input::File(_) => self.name(),
            Input::Standard => "standard input".to_string(),
        }
    }
}

/// The system's reason, without its number.
pub fn reason(error: &io::Error) -> String {
    let reason = error.to_string();
    match reason.split_once(" (os error ") {
        Some((words, _)) => words.to_string(),
        None => reason,
    }
}
