//! The smallest host: it serves standard input, a content a line, and has one method, which gives its params back.
use bullmyrtle::{Connection, Ended, Event, Framing, Settings};
use std::io::{self, Read};

fn main() -> Result<(), Box<dyn std::error::Error>> {
    let mut connection = Connection::new(Settings::new().framing(Framing::Lines))?;
    let mut bytes = [0; 65_536];
    while !connection.is_done() {
        match io::stdin().read(&mut bytes)? {
            0 => connection.end(Ended::Closed)?,
            count => connection.feed(&bytes[..count])?,
        }
        while let Some(event) = connection.next_event()? {
            match event {
                Event::Request { number, method, params: Some(params), .. } if method == "echo" => {
                    connection.answer(number, &params)?;
                }
                Event::Request { number, .. } => connection.fail(number, -32601, "Method not found", None)?,
                Event::Notification { number, .. } => connection.close(number)?,
                _ => {}
            }
        }
        connection.write_to(io::stdout())?;
    }
    Ok(())
}
