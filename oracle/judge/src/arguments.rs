//! The words of the command line, taken one after the other, and standard input.

use std::io::Read;

use judge::hex;
use judge::picture::Picture;
use judge::resilient::{Key, Lock};

use crate::commands::Failure;

pub struct Arguments {
    words: std::vec::IntoIter<String>,
    /// The number of f32 lent, from `--work N`; as many as needed where it is not given.
    pub work: usize,
}

fn usage<T>(message: String) -> Result<T, Failure> {
    Err(Failure::Usage(message))
}

impl Arguments {
    pub fn new(words: &[String]) -> Result<Arguments, Failure> {
        let mut words = words.to_vec();
        let mut work = usize::MAX;
        if let Some(place) = words.iter().position(|word| word == "--work") {
            let taken: Vec<String> = words.splice(place..words.len().min(place + 2), []).collect();
            work = match taken.get(1).map(|word| word.parse()) {
                Some(Ok(number)) => number,
                _ => return usage("--work needs a number".to_owned()),
            };
        }
        Ok(Arguments { words: words.into_iter(), work })
    }

    pub fn word(&mut self, what: &str) -> Result<String, Failure> {
        match self.words.next() {
            Some(word) => Ok(word),
            None => usage(format!("{what} is missing")),
        }
    }

    pub fn more(&self) -> bool {
        self.words.len() > 0
    }

    /// To be called after the last argument was taken.
    pub fn end(&mut self) -> Result<(), Failure> {
        match self.words.next() {
            None => Ok(()),
            Some(word) => usage(format!("{word} is one argument too many")),
        }
    }

    pub fn number<T: std::str::FromStr>(&mut self, what: &str) -> Result<T, Failure> {
        let word = self.word(what)?;
        word.parse()
            .or_else(|_| usage(format!("{what} is a number, and {word} is not one it can be")))
    }

    pub fn bytes(&mut self, what: &str) -> Result<Vec<u8>, Failure> {
        let word = self.word(what)?;
        hex::to_bytes(&word)
            .map_or_else(|| usage(format!("{what} is in hex, and {word} is not")), Ok)
    }

    pub fn array<const LENGTH: usize>(&mut self, what: &str) -> Result<[u8; LENGTH], Failure> {
        let bytes = self.bytes(what)?;
        <[u8; LENGTH]>::try_from(bytes)
            .or_else(|bytes| usage(format!("{what} has {LENGTH} bytes, and not {}", bytes.len())))
    }

    pub fn picture(&mut self) -> Result<Picture, Failure> {
        Ok(Picture {
            width: self.number("WIDTH")?,
            height: self.number("HEIGHT")?,
            channels: self.number("CHANNELS")?,
        })
    }

    pub fn key(&mut self) -> Result<Option<Key>, Failure> {
        self.more().then(|| self.array("KEY")).transpose()
    }

    pub fn lock(&mut self) -> Result<Option<Lock>, Failure> {
        let Some(key) = self.key()? else {
            return Ok(None);
        };
        let salt = self.array("SALT")?;
        Ok(Some(Lock { key, salt }))
    }
}

pub fn input() -> Vec<u8> {
    let mut bytes = Vec::new();
    let read = std::io::stdin().lock().read_to_end(&mut bytes);
    read.expect("standard input can be read");
    bytes
}

/// Standard input as f32.
pub fn input_floats() -> Result<Vec<f32>, Failure> {
    let bytes = input();
    let (words, rest) = bytes.as_chunks::<4>();
    if !rest.is_empty() {
        return usage(format!("{} bytes are no whole number of f32", bytes.len()));
    }
    Ok(words.iter().map(|&word| f32::from_le_bytes(word)).collect())
}

/// Standard input as a known number of f32.
pub fn input_array<const LENGTH: usize>() -> Result<[f32; LENGTH], Failure> {
    let floats = input_floats()?;
    <[f32; LENGTH]>::try_from(floats)
        .or_else(|floats| usage(format!("{LENGTH} f32 are needed, and not {}", floats.len())))
}
