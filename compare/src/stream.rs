//! A run of bytes answered line by line, in pieces of any length.

use crate::ledger::Ledger;
use crate::limits::MOST_HELD;
use crate::lines::{read_call, write_answer, write_unread, LONGEST};
use crate::methods::Wrong;
use std::io::{Read, Result, Write};

/// A ledger opened at 0, and the line begun in the pieces so far.
pub struct Stream {
    ledger: Ledger,
    begun: Vec<u8>,
}

impl Stream {
    pub fn new(wrong: Option<Wrong>) -> Stream {
        Stream { ledger: Ledger::new(wrong), begun: Vec::new() }
    }

    pub fn ledger(&self) -> &Ledger {
        &self.ledger
    }

    /// Answers the lines that end in this piece.
    pub fn feed(&mut self, piece: &[u8], out: &mut Vec<u8>) {
        let mut rest = piece;
        while let Some(end) = rest.iter().position(|byte| *byte == b'\n') {
            self.keep(&rest[..end]);
            self.answer(out);
            rest = &rest[end + 1..];
        }
        self.keep(rest);
    }

    /// Answers a last line without a newline; an empty last piece is no line.
    pub fn finish(&mut self, out: &mut Vec<u8>) {
        if !self.begun.is_empty() {
            self.answer(out);
        }
    }

    /// Keeps enough of a line to know it, or to know that it is too long.
    fn keep(&mut self, part: &[u8]) {
        let room = LONGEST + 1 - self.begun.len();
        self.begun.extend_from_slice(&part[..part.len().min(room)]);
    }

    fn answer(&mut self, out: &mut Vec<u8>) {
        match read_call(&self.begun) {
            Some(call) => write_answer(self.begun[0], &self.ledger.call(&call, MOST_HELD), out),
            None => write_unread(out),
        }
        self.begun.clear();
    }
}

/// The whole answer to a whole input.
pub fn answers(input: &[u8], wrong: Option<Wrong>) -> Vec<u8> {
    let mut out = Vec::new();
    let mut stream = Stream::new(wrong);
    stream.feed(input, &mut out);
    stream.finish(&mut out);
    out
}

/// Answers an input to its end, writing after each piece that arrives.
pub fn serve(input: &mut impl Read, output: &mut impl Write) -> Result<()> {
    let mut stream = Stream::new(None);
    let mut piece = vec![0; 1 << 16];
    let mut out = Vec::new();
    loop {
        let length = input.read(&mut piece)?;
        if length == 0 {
            stream.finish(&mut out);
            return output.write_all(&out).and_then(|()| output.flush());
        }
        stream.feed(&piece[..length], &mut out);
        output.write_all(&out)?;
        output.flush()?;
        out.clear();
    }
}
