//! Rounds, as a file has them: for each a line `PAUSE LENGTH CONTENTS` and LENGTH bytes behind it.
use std::time::Duration;

/// Bytes that are sent at once, after a pause, and how many contents are then waited for.
pub struct Round {
    pub pause: Duration,
    pub sent: Vec<u8>,
    pub contents: usize,
}

pub fn read_all(mut text: &[u8]) -> Option<Vec<Round>> {
    let mut rounds = Vec::new();
    while !text.is_empty() {
        let (round, rest) = read(text)?;
        rounds.push(round);
        text = rest;
    }
    Some(rounds)
}

/// The first round, and the text behind it.
fn read(text: &[u8]) -> Option<(Round, &[u8])> {
    let end = text.iter().position(|it| *it == b'\n')?;
    let (line, behind) = (std::str::from_utf8(&text[..end]).ok()?, &text[end + 1..]);
    let numbers: Vec<usize> = line.split(' ').map(|it| it.parse().ok()).collect::<Option<_>>()?;
    let [pause, length, contents] = numbers[..] else {
        return None;
    };
    let (sent, rest) = behind.split_at_checked(length)?;
    Some((Round { pause: Duration::from_millis(pause as u64), sent: sent.to_vec(), contents }, rest))
}
