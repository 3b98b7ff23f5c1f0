//! What a process that runs has used so far, as Linux tells it.
use std::{fs, io};

/// The most memory that it had resident at any time, in KiB.
pub fn peak_memory(process: u32) -> io::Result<u64> {
    let status = fs::read_to_string(format!("/proc/{process}/status"))?;
    number(status.lines().find_map(|it| it.strip_prefix("VmHWM:")))
}

/// The processor time of its threads, in nanoseconds.
pub fn processor_time(process: u32) -> io::Result<u64> {
    let mut sum = 0;
    for thread in fs::read_dir(format!("/proc/{process}/task"))? {
        sum += number(Some(&fs::read_to_string(thread?.path().join("schedstat"))?))?;
    }
    Ok(sum)
}

/// The number that a text begins with.
fn number(text: Option<&str>) -> io::Result<u64> {
    let word = text.and_then(|it| it.split_whitespace().next());
    word.and_then(|it| it.parse().ok()).ok_or(io::ErrorKind::InvalidData.into())
}
