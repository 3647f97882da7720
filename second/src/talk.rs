//! A talk with the console: its lines are answered as they come, in pieces of any size.

use crate::console::Console;
use crate::line::MOST_BYTES;

#[derive(Clone, Debug, Default)]
pub struct Talk {
    console: Console,
    /// The beginning of a line whose line feed has not come yet.
    line: Vec<u8>,
}

/// All answers to an input.
pub fn answers(input: &[u8]) -> Vec<u8> {
    let mut talk = Talk::default();
    talk.hear(input).flat_map(String::into_bytes).collect()
}

impl Talk {
    /// The answers, each with its line feed, to the lines that end in this piece of the input.
    pub fn hear<'a>(&'a mut self, piece: &'a [u8]) -> impl Iterator<Item = String> + 'a {
        let parts = piece.split_inclusive(|byte| *byte == b'\n');
        parts.filter_map(move |part| self.hear_part(part))
    }

    fn hear_part(&mut self, part: &[u8]) -> Option<String> {
        match part.strip_suffix(b"\n") {
            None => {
                self.keep(part);
                None
            }
            Some(rest) => {
                self.keep(rest);
                let answer = self.console.answer(&self.line);
                self.line.clear();
                Some(answer + "\n")
            }
        }
    }

    /// Of a line that is too long for a command one byte too many is kept, and no more.
    fn keep(&mut self, part: &[u8]) {
        let room = (MOST_BYTES + 1).saturating_sub(self.line.len());
        let kept = part.get(..room).unwrap_or(part);
        self.line.extend_from_slice(kept);
    }
}
