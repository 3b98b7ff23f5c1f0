//! What the tests share.
#![allow(dead_code)]
use bullmyrtle::{Connection, Event, Framing, Settings};

/// A connection whose contents are lines, with cancels.
pub fn lines() -> Connection {
    Connection::new(Settings::new().framing(Framing::Lines).cancels(true)).expect("such settings")
}

pub fn feed(connection: &mut Connection, content: &str) {
    connection.feed(format!("{content}\n").as_bytes()).expect("the input isn't over");
}

pub fn events(connection: &mut Connection) -> Vec<Event> {
    connection.events().expect("memory")
}

/// The lines that are to be written.
pub fn written(connection: &mut Connection) -> Vec<String> {
    let bytes = connection.take_bytes();
    assert_eq!(connection.pending(), 0);
    String::from_utf8(bytes).expect("UTF-8").lines().map(String::from).collect()
}

/// A connection with the open request 1, whose id is 7.
pub fn asked() -> Connection {
    let mut connection = lines();
    feed(&mut connection, r#"{"jsonrpc":"2.0","method":"m","params":[1],"id":7}"#);
    assert_eq!(events(&mut connection).len(), 1);
    connection
}
