//! One side of a conversation, and the frames that it writes.
use serde_json::Value;
use std::io::{self, Write};

pub trait Side {
    /// Takes a content, runs what can be run, and writes what is due.
    fn take(&mut self, content: &[u8]) -> io::Result<()>;

    fn flush(&mut self) -> io::Result<()>;

    /// The input is over: calls without a reply get none.
    fn end(&mut self) -> io::Result<()>;
}

/// Writes a message as a frame, whose text is made in `text`.
pub fn write_frame(output: &mut impl Write, text: &mut Vec<u8>, message: &Value) -> io::Result<()> {
    text.clear();
    serde_json::to_writer(&mut *text, message)?;
    write!(output, "Content-Length: {}\r\n\r\n", text.len())?;
    output.write_all(text)
}
