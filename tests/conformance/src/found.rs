//! Inputs on which the fuzzer found a difference: a folder of files, each an input in hexadecimal digits. A test
//! compares them again.

use std::collections::hash_map::DefaultHasher;
use std::fs;
use std::hash::{Hash, Hasher};
use std::io;
use std::path::{Path, PathBuf};

use crate::engine::root;
use crate::inputs::Kind;

const FOLDER: &str = "tests/conformance/found";

pub fn hex(input: &[u8]) -> String {
    input.iter().map(|byte| format!("{byte:02x}")).collect()
}

/// The bytes of hexadecimal digits; `None` if there are other characters.
pub fn bytes(hex: &str) -> Option<Vec<u8>> {
    let digit = |&byte: &u8| Some(char::from(byte).to_digit(16)? as u8);
    let two = |pair: &[u8]| Some(digit(pair.first()?)? * 16 + digit(pair.get(1)?)?);
    hex.trim().as_bytes().chunks(2).map(two).collect()
}

/// Writes an input to a file and returns its name, which depends on the input alone.
pub fn keep(input: &[u8]) -> io::Result<String> {
    let mut hasher = DefaultHasher::new();
    input.hash(&mut hasher);
    let name = format!("{FOLDER}/{:?}-{:016x}", Kind::of(input), hasher.finish());
    fs::create_dir_all(root().join(FOLDER))?;
    fs::write(root().join(&name), hex(input) + "\n")?;
    Ok(name)
}

/// Every input of the folder, with its file. There is no folder until something is found.
pub fn all() -> io::Result<Vec<(PathBuf, Vec<u8>)>> {
    let folder = root().join(FOLDER);
    if !folder.exists() {
        return Ok(Vec::new());
    }
    let read = |path: &Path| -> io::Result<Vec<u8>> {
        bytes(&fs::read_to_string(path)?).ok_or_else(|| {
            let why = format!("{} is not in hexadecimal digits", path.display());
            io::Error::new(io::ErrorKind::InvalidData, why)
        })
    };
    fs::read_dir(folder)?
        .map(|entry| {
            let path = entry?.path();
            let input = read(&path)?;
            Ok((path, input))
        })
        .collect()
}
