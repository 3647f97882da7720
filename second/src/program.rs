//! What the programs share: standard input to standard output, with plain words for an input that
//! cannot be read.

use crate::talk::Talk;
use std::fs::File;
use std::io::{self, BufWriter, ErrorKind, Read, Write};
use std::os::raw::c_int;
use std::os::unix::io::AsFd;

const WELL: c_int = 0;
const FAILED: c_int = 1;

/// The most bytes that are read before the lines among them are answered.
const PIECE: usize = 65_536;

/// Reads at most `enough` bytes, writes the answer to them, and gives the exit status.
pub fn run(enough: usize, answer: impl Fn(&[u8]) -> Vec<u8>) -> c_int {
    match read_input(enough) {
        Ok(input) => write_output(&answer(&input), WELL),
        Err(_) => say_unreadable(),
    }
}

/// Answers each line of a talk as soon as it has been read, and gives the exit status.
pub fn run_talk(mut talk: Talk) -> c_int {
    let mut input = match open_input() {
        Ok(input) => input,
        Err(_) => return say_unreadable(),
    };
    let mut piece = vec![0; PIECE];
    loop {
        match input.read(&mut piece) {
            Ok(0) => return WELL,
            Ok(length) => {
                if answer_piece(&mut talk, &piece[..length]).is_err() {
                    return FAILED;
                }
            }
            Err(error) if error.kind() == ErrorKind::Interrupted => {}
            Err(_) => return say_unreadable(),
        }
    }
}

fn answer_piece(talk: &mut Talk, piece: &[u8]) -> io::Result<()> {
    let mut output = BufWriter::new(io::stdout().lock());
    for answer in talk.hear(piece) {
        output.write_all(answer.as_bytes())?;
    }
    output.flush()
}

/// The descriptor is read as a file: the library's own stand-in for it would take an input that
/// cannot be read for an empty one.
fn open_input() -> io::Result<File> {
    let descriptor = io::stdin().as_fd().try_clone_to_owned()?;
    Ok(File::from(descriptor))
}

fn read_input(enough: usize) -> io::Result<Vec<u8>> {
    let most = u64::try_from(enough).unwrap_or(u64::MAX);
    let mut input = Vec::new();
    open_input()?.take(most).read_to_end(&mut input)?;
    Ok(input)
}

fn say_unreadable() -> c_int {
    write_output(b"unreadable input\n", FAILED)
}

/// An output that nobody reads any more only changes the status.
fn write_output(bytes: &[u8], status: c_int) -> c_int {
    let mut output = io::stdout();
    match output.write_all(bytes).and_then(|_| output.flush()) {
        Ok(()) => status,
        Err(_) => FAILED,
    }
}
