//! What a server writes, as it comes.
use std::io::{self, BufRead, BufReader, Read};

/// As much as a pipe holds.
const PIECE: usize = 65_536;

pub struct Arrivals<R> {
    input: BufReader<R>,
    came: Vec<u8>,
}

impl<R: Read> Arrivals<R> {
    /// With room for twice what is sent, touched beforehand, so that no page of it is new while a round is timed.
    pub fn new(input: R, sent: usize) -> Self {
        let mut came = vec![1; 2 * sent + PIECE];
        came.clear();
        Arrivals { input: BufReader::with_capacity(PIECE, input), came }
    }

    /// Reads so many frames.
    pub fn read(&mut self, frames: usize) -> io::Result<()> {
        for _ in 0..frames {
            let start = self.came.len();
            self.input.read_until(b'\n', &mut self.came)?;
            let length =
                length_of(&self.came[start..]).ok_or_else(|| io::Error::other("it ended, or wrote no head"))?;
            self.read_bytes("\r\n".len() + length)?;
        }
        Ok(())
    }

    fn read_bytes(&mut self, mut missing: usize) -> io::Result<()> {
        while missing > 0 {
            let piece = self.input.fill_buf()?;
            if piece.is_empty() {
                return Err(io::ErrorKind::UnexpectedEof.into());
            }
            let length = piece.len().min(missing);
            self.came.extend_from_slice(&piece[..length]);
            self.input.consume(length);
            missing -= length;
        }
        Ok(())
    }

    /// Reads to the end, and gives all that came.
    pub fn rest(mut self) -> io::Result<Vec<u8>> {
        self.input.read_to_end(&mut self.came)?;
        Ok(self.came)
    }
}

fn length_of(head: &[u8]) -> Option<usize> {
    let digits = head.strip_prefix(b"Content-Length: ")?.strip_suffix(b"\r\n")?;
    std::str::from_utf8(digits).ok()?.parse().ok()
}
