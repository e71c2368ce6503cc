//! Reads the answer of a Watchman server on standard input, and prints a line for each file: its
//! name and its size.
use kuvtsada_bser::Tape;
use std::error::Error;
use std::io::Read;

fn main() -> Result<(), Box<dyn Error>> {
    let mut bytes = Vec::new();
    std::io::stdin().read_to_end(&mut bytes)?;
    let tape = Tape::read(&bytes)?;
    let answer = tape.root();
    if let Some(error) = answer.get("error").and_then(|error| error.as_str()) {
        return Err(error.into());
    }
    for file in answer.get("files").and_then(|files| files.items()).into_iter().flatten() {
        let name = file.get("name").unwrap_or(file).as_bytes().unwrap_or_default();
        let size = file.get("size").and_then(|size| size.as_i64()).unwrap_or(0);
        println!("{size:>10} {}", String::from_utf8_lossy(name));
    }
    Ok(())
}
