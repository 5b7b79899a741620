//! tools/feed: records written as text have to come back as the feed's bytes, and a wrong line by its number.

use crate::feed::Record;
use std::io::Write;
use std::process::{Command, Stdio};

const TOOL: &str = "tools/feed";

fn written(record: &Record) -> String {
    match *record {
        Record::Open { start, attributes, k, c, n } => format!("open {} {} {} {} {}", start, attributes, k, c, n),
        Record::Set { t, quark, value } => format!("set {} {} {}", t, quark, value),
        Record::Remove { t, quark } => format!("remove {} {}", t, quark),
        Record::Increment { t, quark } => format!("increment {} {}", t, quark),
        Record::Add => "add".into(),
        Record::Finish { t } => format!("finish {}", t),
        Record::Single { t, quark } => format!("single {} {}", t, quark),
        Record::Full { t } => format!("full {}", t),
    }
}

/// Runs the tool. Gives what it wrote and what it said.
fn run(text: &str) -> Result<(Vec<u8>, String), String> {
    let error = |error: std::io::Error| format!("{}: {}", TOOL, error);
    let mut child =
        Command::new(TOOL).stdin(Stdio::piped()).stdout(Stdio::piped()).stderr(Stdio::piped()).spawn().map_err(error)?;
    child.stdin.take().expect("the input is piped").write_all(text.as_bytes()).map_err(error)?;
    let output = child.wait_with_output().map_err(error)?;
    let said = String::from_utf8_lossy(&output.stderr).into_owned();
    if output.status.success() != said.is_empty() {
        return Err(format!("{} ended with {} and said: {}", TOOL, output.status, said));
    }
    Ok((output.stdout, said))
}

/// The bytes of a text feed in a file.
pub fn file(path: &str) -> Result<Vec<u8>, String> {
    let text = std::fs::read_to_string(path).map_err(|error| format!("{}: {}", path, error))?;
    match run(&text)? {
        (bytes, said) if said.is_empty() => Ok(bytes),
        (_, said) => Err(said),
    }
}

/// Records, blank lines and comments give the bytes of the records and nothing else.
pub fn same_bytes(records: &[Record]) -> Result<(), String> {
    let mut text = String::from("# a comment\n\n");
    for (i, record) in records.iter().enumerate() {
        text += &written(record);
        text += ["\n", "  # a comment\n", "\n\n", "\t\n"][i % 4];
    }
    let bytes: Vec<u8> = records.iter().flat_map(Record::bytes).collect();
    match run(&text)? {
        (made, said) if made == bytes && said.is_empty() => Ok(()),
        (_, said) => Err(format!("{} made other bytes of this text (and said '{}'):\n{}", TOOL, said, text)),
    }
}

/// A wrong line among right ones: nothing is written, and the line and the fault are named.
pub fn wrong_lines() -> Result<(), String> {
    let wrong = [
        ("opne 0 2 2 2 6", "'opne' is no record"),
        ("set 1 2", "too few numbers"),
        ("add 1", "too many numbers"),
        ("finish", "too few numbers"),
        ("set 10 0 1.5", "the value '1.5' is no whole number"),
        ("set ten 0 1", "the time 'ten' is no whole number"),
        ("full -1", "the time -1 is outside its range"),
        ("full 18446744073709551616", "the time 18446744073709551616 is outside its range"),
        ("single 0 4294967296", "the quark 4294967296 is outside its range"),
        ("set 0 0 9223372036854775808", "the value 9223372036854775808 is outside its range"),
        ("set 0 0 -9223372036854775809", "the value -9223372036854775809 is outside its range"),
        ("open 0 0 65536 2 1", "the K 65536 is outside its range"),
        ("open 0 0 1 65536 1", "the C 65536 is outside its range"),
        ("open 0 0 1 2 4294967296", "the N 4294967296 is outside its range"),
    ];
    for (line, fault) in wrong {
        let (bytes, said) = run(&format!("add\n\n{}\nadd\n", line))?;
        if !bytes.is_empty() || !said.contains("line 3: ") || !said.contains(fault) {
            return Err(format!("{} on the wrong line '{}' wrote {} bytes and said: {}", TOOL, line, bytes.len(), said));
        }
    }
    // 21,845 empty records of three bytes are one byte short of the longest feed, one more is too long.
    let (longest, _) = run(&"add\n".repeat(21_845))?;
    let (none, said) = run(&"add\n".repeat(21_846))?;
    if longest.len() != 65_535 || !none.is_empty() || !said.contains("too long") {
        return Err(format!("{} on long feeds wrote {} and {} bytes and said: {}", TOOL, longest.len(), none.len(), said));
    }
    Ok(())
}
