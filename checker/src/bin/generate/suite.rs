//! Cases one behind the other, and the lines due for each.

use std::collections::{HashMap, HashSet};
use std::fmt::{Display, Write};
use std::path::Path;
use std::{fs, io};

/// What each byte of an output is before a program under test writes to it.
pub const FILL: u8 = 170;

#[derive(Default)]
pub struct Suite {
    names: HashSet<String>,
    inputs: HashMap<Vec<u8>, String>,
    stdin: Vec<u8>,
    stdout: String,
}

impl Suite {
    /// Adds a case: its name, what stands behind the name, and the lines
    /// behind the first.
    pub fn add(&mut self, name: &str, input: Vec<u8>, lines: &str) {
        assert!((1..=60).contains(&name.len()), "{name} is empty or too long");
        let allowed = |b: u8| b.is_ascii_lowercase() || b.is_ascii_digit() || b == b'-';
        assert!(name.bytes().all(allowed), "{name} has other characters");
        assert!(self.names.insert(name.to_string()), "{name} stands twice");

        self.stdin.push(name.len() as u8);
        self.stdin.extend(name.as_bytes());
        self.stdin.extend(&input);
        line(&mut self.stdout, "case", [name]);
        self.stdout.push_str(lines);
        if let Some(other) = self.inputs.insert(input, name.to_string()) {
            panic!("{name} has the bytes of {other}");
        }
    }

    /// Writes `stdin` and `stdout` in the part of the folder with this name.
    pub fn write(&self, folder: &Path, name: &str) -> io::Result<()> {
        write(&folder.join(name), &self.stdin, &self.stdout)?;
        let (cases, bytes_in, bytes_out) = (self.names.len(), self.stdin.len(), self.stdout.len());
        println!("{name}: {cases} cases, {bytes_in} bytes in, {bytes_out} bytes out");
        Ok(())
    }
}

/// Writes `stdin` and `stdout` in the folder.
pub fn write(folder: &Path, stdin: &[u8], stdout: &str) -> io::Result<()> {
    fs::create_dir_all(folder)?;
    fs::write(folder.join("stdin"), stdin)?;
    fs::write(folder.join("stdout"), stdout)
}

/// A line of a word and fields, parted by one space each.
pub fn line<T: Display>(out: &mut String, word: &str, fields: impl IntoIterator<Item = T>) {
    out.push_str(word);
    for field in fields {
        write!(out, " {field}").unwrap();
    }
    out.push('\n');
}

/// Bytes behind their length.
pub fn sized(bytes: &[u8]) -> Vec<u8> {
    [&(bytes.len() as u32).to_le_bytes(), bytes].concat()
}

pub fn checksum<'a>(bytes: impl IntoIterator<Item = &'a u8>) -> u64 {
    bytes.into_iter().fold(0, |sum, &byte| (sum * 257 + u64::from(byte) + 1) % 4_294_967_291)
}
