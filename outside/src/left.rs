//! What is left behind of a difference: the stream and what was seen.

use std::fs;
use std::io;
use std::path::{Path, PathBuf};

use crate::case::Case;

/// Where differences are left.
pub fn directory() -> PathBuf {
    Path::new(env!("CARGO_MANIFEST_DIR")).join("../target/differences")
}

/// Leaves the stream and a message behind under a name, and gives where the stream is.
pub fn leave(name: &str, case: &Case, message: &str) -> io::Result<PathBuf> {
    let directory = directory();
    fs::create_dir_all(&directory)?;
    let stream = directory.join(format!("{name}.stream"));
    fs::write(&stream, &case.bytes)?;
    let text = format!("{message}\nplan {}\n", case.plan);
    fs::write(directory.join(format!("{name}.txt")), text)?;
    Ok(stream)
}
