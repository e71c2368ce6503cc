//! Reads the answer of a Watchman server on standard input as a type, and prints a line for each file. The type's derive
//! is serde's; names and clocks are borrowed from the message.
use serde::Deserialize;
use std::error::Error;
use std::io::Read;

#[derive(Deserialize)]
struct File<'a> {
    #[serde(borrow, with = "serde_bytes")]
    name: &'a [u8],
    #[serde(default)]
    size: u64,
}

#[derive(Deserialize)]
struct Answer<'a> {
    clock: &'a str,
    #[serde(borrow, default)]
    files: Vec<File<'a>>,
}

fn main() -> Result<(), Box<dyn Error>> {
    let mut bytes = Vec::new();
    std::io::stdin().read_to_end(&mut bytes)?;
    let answer: Answer<'_> = kuvtsada_bser::from_slice(&bytes)?;
    for file in &answer.files {
        println!("{:>10} {}", file.size, String::from_utf8_lossy(file.name));
    }
    println!("at {}", answer.clock);
    Ok(())
}
