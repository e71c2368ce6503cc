//! Reads a recorded answer of a Watchman server, and prints its files: a program that uses serde_bser.
use serde::Deserialize;
use serde_bser::bytestring::ByteString;

#[derive(Debug, Deserialize)]
struct File {
    name: ByteString,
    size: Option<u64>,
}

#[derive(Debug, Deserialize)]
struct Answer {
    version: String,
    files: Vec<File>,
}

fn main() {
    let path = std::env::args().nth(1).expect("a file");
    let bytes = std::fs::read(path).expect("the file");
    let answer: Answer = serde_bser::from_slice(&bytes).expect("an answer");
    let files = answer.files.iter();
    let sizes: u64 = files.filter_map(|file| file.size).sum();
    println!("{} files of {sizes} bytes by {}, as {:?}", answer.files.len(), answer.version, answer.files.first().map(|it| &it.name));
}
