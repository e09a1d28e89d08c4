//! answer.rs: the call from Rust. It reads the document in standard input and answers the words of the command line, as
//! the program does.
//!
//!   rustc -O answer.rs -L FOLDER_OF_THE_LIBRARY
use std::io::{Read, Write};

#[repr(C)]
struct Word {
    bytes: *const u8,
    length: usize,
}

#[link(name = "yds")]
extern "C" {
    fn yds_answer(words: *const Word, word_count: usize, input: *const u8, input_length: usize, first_key: u64, second_key: u64,
                  room: *mut u8, room_length: usize, needed: *mut usize) -> u8;
}

/// The status and the text.
fn answer(words: &[String], input: &[u8]) -> (u8, Vec<u8>) {
    let given: Vec<Word> = words.iter().map(|word| Word { bytes: word.as_ptr(), length: word.len() }).collect();
    let mut text = vec![0; 4096];
    loop {
        let (room, mut needed) = (text.len(), 0);
        // Each pointer leads to as many bytes as its length says, and no two overlap. The keys are for inputs of one's own:
        // where others could choose the names to make a call slow, draw them once for each process.
        let status = unsafe {
            yds_answer(given.as_ptr(), given.len(), input.as_ptr(), input.len(), 1, 2, text.as_mut_ptr(), room, &mut needed)
        };
        text.resize(needed, 0);
        if needed <= room {
            return (status, text);
        }
    }
}

fn main() -> std::io::Result<()> {
    let words: Vec<String> = std::env::args().skip(1).collect();
    let mut input = Vec::new();
    std::io::stdin().read_to_end(&mut input)?;
    let (status, text) = answer(&words, &input);
    std::io::stdout().write_all(&text)?;
    std::process::exit(status.into())
}
