//! A client that plays rounds with a server, and tells how long each took.
//!
//! usage: client ROUNDS CAME PROGRAM [WORD]..
//!
//! It starts PROGRAM with the WORDs, and plays the rounds of the file ROUNDS with it, one after the other. All that
//! came goes to the file CAME. To its output it writes the nanoseconds of each round, from the first byte sent to the
//! last one read, a line each; and then two lines: the most memory that the server had resident, in KiB, and the
//! processor time that it used, in nanoseconds.
mod arrivals;
mod process;
mod round;

use arrivals::Arrivals;
use round::Round;
use std::error::Error;
use std::io::{self, Read, Write};
use std::process::{Child, ChildStdin, Command, Stdio};
use std::time::Instant;
use std::{env, fs, thread};

/// What goes into an empty pipe whole, so that the one who sends it doesn't wait for the one who reads.
const PIPE: usize = 4_096;

fn main() -> Result<(), Box<dyn Error>> {
    let words: Vec<String> = env::args().skip(1).collect();
    let [rounds, came, program, words @ ..] = words.as_slice() else {
        return Err("usage: client ROUNDS CAME PROGRAM [WORD]..".into());
    };
    let rounds = round::read_all(&fs::read(rounds)?).ok_or("a round that can't be read")?;
    let mut server = Command::new(program).args(words).stdin(Stdio::piped()).stdout(Stdio::piped()).spawn()?;
    let mut input = server.stdin.take().ok_or("no way to the server")?;
    let sent = rounds.iter().map(|it| it.sent.len()).sum();
    let mut arrivals = Arrivals::new(server.stdout.take().ok_or("no way back")?, sent);
    let mut told = String::new();
    for round in &rounds {
        told += &format!("{}\n", play(round, &mut input, &mut arrivals)?);
    }
    told += &format!("{}\n{}\n", process::peak_memory(server.id())?, process::processor_time(server.id())?);
    drop(input);
    fs::write(came, arrivals.rest()?)?;
    end(server)?;
    print!("{told}");
    Ok(())
}

/// Plays one round, and gives the nanoseconds that it took.
fn play(round: &Round, input: &mut ChildStdin, arrivals: &mut Arrivals<impl Read>) -> io::Result<u128> {
    thread::sleep(round.pause);
    let begun = Instant::now();
    if round.sent.len() <= PIPE {
        input.write_all(&round.sent)?;
        arrivals.read(round.contents)?;
    } else {
        thread::scope(|scope| {
            let sender = scope.spawn(|| input.write_all(&round.sent));
            arrivals.read(round.contents)?;
            sender.join().expect("the sender, which doesn't panic")
        })?;
    }
    Ok(begun.elapsed().as_nanos())
}

fn end(mut server: Child) -> Result<(), Box<dyn Error>> {
    let status = server.wait()?;
    if status.success() {
        Ok(())
    } else {
        Err(format!("the server ended with {status}").into())
    }
}
