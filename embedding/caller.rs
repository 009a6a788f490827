// rustc -O -o caller embedding/caller.rs -L native -l static=mencius
use std::io::{Read, Write};

#[repr(C)]
#[derive(Default)]
struct Answer {
    status: u64,
    printed: u64,
    said: u64,
    asked: u64,
}

unsafe extern "C" {
    fn mencius_call(
        words: *const u8, words_length: usize, input: *const u8, input_length: usize,
        printed: *mut u8, printed_room: usize, said: *mut u8, said_room: usize, answer: *mut Answer,
    );
}

/// The standard output, the standard error and the exit status of the program.
pub fn mencius(arguments: &[&str], input: &[u8]) -> (Vec<u8>, Vec<u8>, u8) {
    let words: Vec<u8> = arguments.iter().flat_map(|word| word.bytes().chain([0])).collect();
    let (mut printed, mut said) = (vec![0; 65_536], vec![0; 4_096]);
    loop {
        let mut answer = Answer::default();
        // Safety: each pointer points to as many bytes as its length says, and the pointer of a vector is never null.
        unsafe {
            mencius_call(
                words.as_ptr(), words.len(), input.as_ptr(), input.len(),
                printed.as_mut_ptr(), printed.len(), said.as_mut_ptr(), said.len(), &mut answer,
            );
        }
        let (out, err) = (answer.printed as usize, answer.said as usize);
        let fits = out <= printed.len() && err <= said.len();
        printed.resize(out, 0);
        said.resize(err, 0);
        if fits {
            return (printed, said, answer.status as u8);
        }
    }
}

fn main() {
    let arguments: Vec<String> = std::env::args().skip(1).collect();
    let words: Vec<&str> = arguments.iter().map(String::as_str).collect();
    let mut input = Vec::new();
    std::io::stdin().read_to_end(&mut input).unwrap();
    let (printed, said, status) = mencius(&words, &input);
    std::io::stdout().write_all(&printed).unwrap();
    std::io::stderr().write_all(&said).unwrap();
    std::process::exit(status.into());
}
