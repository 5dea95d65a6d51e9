//! The command line.

use std::ffi::{OsStr, OsString};
use std::fs::{self, File};
use std::io::{self, BufWriter, Read, Write};

use crate::batch;
use crate::call;
use crate::make_batches;
use crate::make_calls;
use crate::make_damage;
use crate::make_parts;
use crate::record::{Call, Damage, Name, Reader};

const USAGE: &str = "usage: second batch
       second answer-batches|answer-calls|answer-lines|answer-entries FILE
       second generate-batches|generate-calls|generate-lines|generate-entries|generate-damage SEED COUNT OUT";

/// Writes the answer of one record.
type AnswerOne = fn(&mut Reader<'_>, usize, &mut dyn Write) -> Result<(), Trouble>;

/// Writes a case file from a seed and a count.
type Generate = fn(u64, u64, &mut dyn Write) -> io::Result<()>;

pub enum Trouble {
    Damage(Damage),
    Output(io::Error),
}

impl From<Damage> for Trouble {
    fn from(damage: Damage) -> Trouble {
        Trouble::Damage(damage)
    }
}

impl From<io::Error> for Trouble {
    fn from(error: io::Error) -> Trouble {
        Trouble::Output(error)
    }
}

pub fn run(words: &[OsString]) -> Result<(), String> {
    let names: Vec<&str> = words.iter().map(|w| w.to_str().unwrap_or("")).collect();
    match names.as_slice() {
        ["batch"] => answer_standard_input(),
        [command, _] => match answerer(command) {
            Some(answer_one) => answer_file(answer_one, &words[1]),
            None => Err(USAGE.to_string()),
        },
        [command, seed, count, _] => match generator(command) {
            Some(generate) => generate_file(generate, seed, count, &words[3]),
            None => Err(USAGE.to_string()),
        },
        _ => Err(USAGE.to_string()),
    }
}

fn answerer(command: &str) -> Option<AnswerOne> {
    match command {
        "answer-batches" => Some(answer_batch),
        "answer-calls" => Some(answer_call),
        "answer-lines" => Some(answer_lines),
        "answer-entries" => Some(answer_entry),
        _ => None,
    }
}

fn generator(command: &str) -> Option<Generate> {
    match command {
        "generate-batches" => Some(make_batches::generate),
        "generate-calls" => Some(make_calls::generate),
        "generate-lines" => Some(make_parts::generate_lines),
        "generate-entries" => Some(make_parts::generate_entries),
        "generate-damage" => Some(make_damage::generate),
        _ => None,
    }
}

/// A batch over the limit is refused whatever follows, so one byte more than
/// the limit is all that is read.
fn answer_standard_input() -> Result<(), String> {
    let limit = batch::MOST_BYTES as u64 + 1;
    let mut bytes = Vec::new();
    io::stdin()
        .lock()
        .take(limit)
        .read_to_end(&mut bytes)
        .map_err(|e| format!("cannot read standard input: {e}"))?;
    let mut out = io::stdout().lock();
    out.write_all(batch::lines(&bytes).as_bytes())
        .and_then(|()| out.flush())
        .map_err(|e| format!("cannot write: {e}"))
}

fn answer_file(answer_one: AnswerOne, path: &OsStr) -> Result<(), String> {
    let bytes = fs::read(path).map_err(|e| format!("cannot read the file: {e}"))?;
    let mut out = BufWriter::new(io::stdout().lock());
    let result = answer_records(answer_one, &bytes, &mut out);
    let flushed = out.flush().map_err(|e| format!("cannot write: {e}"));
    result.and(flushed)
}

/// The answers of the records before a damaged one are written.
pub fn answer_records(
    answer_one: AnswerOne,
    bytes: &[u8],
    out: &mut dyn Write,
) -> Result<(), String> {
    let mut reader = Reader::new(bytes);
    let mut number = 0;
    while !reader.is_empty() {
        answer_one(&mut reader, number, out).map_err(|trouble| match trouble {
            Trouble::Damage(Damage::EndsInside) => {
                format!("record {number}: the file ends inside it")
            }
            Trouble::Damage(Damage::UnknownCall(code)) => {
                format!("record {number}: there is no call {code}")
            }
            Trouble::Output(error) => format!("cannot write: {error}"),
        })?;
        number += 1;
    }
    Ok(())
}

pub fn answer_batch(
    reader: &mut Reader<'_>,
    number: usize,
    out: &mut dyn Write,
) -> Result<(), Trouble> {
    let bytes = reader.batch()?;
    write!(out, "batch {number}\n{}", batch::lines(bytes))?;
    Ok(())
}

pub fn answer_call(
    reader: &mut Reader<'_>,
    _number: usize,
    out: &mut dyn Write,
) -> Result<(), Trouble> {
    let Call {
        name,
        action,
        upload,
        mut image,
        mut buffer,
    } = reader.call()?;
    let answer = match name {
        Name::Fresh => call::fresh(&upload, &mut image),
        Name::Report => call::report(&upload, &image),
        Name::List => call::list(&upload, &image, &mut buffer),
        Name::Step => call::single_step(&upload, &mut image, action),
        Name::Run => call::run(&upload, &mut image),
        Name::Replay => call::replay(&upload),
    };
    writeln!(out, "{answer} {} {}", hex(&image), hex(&buffer))?;
    Ok(())
}

pub fn answer_lines(
    reader: &mut Reader<'_>,
    _number: usize,
    out: &mut dyn Write,
) -> Result<(), Trouble> {
    let (bytes, mut buffer) = reader.batch_and_buffer()?;
    let answer = batch::write_lines(bytes, &mut buffer);
    writeln!(out, "{answer} {}", hex(&buffer))?;
    Ok(())
}

pub fn answer_entry(
    reader: &mut Reader<'_>,
    _number: usize,
    out: &mut dyn Write,
) -> Result<(), Trouble> {
    let (bytes, entry) = reader.batch_and_entry()?;
    writeln!(out, "{}", batch::entry(bytes, entry))?;
    Ok(())
}

/// Two lowercase digits a byte, or `-` where there is no byte.
fn hex(bytes: &[u8]) -> String {
    if bytes.is_empty() {
        return String::from("-");
    }
    bytes.iter().map(|byte| format!("{byte:02x}")).collect()
}

fn generate_file(generate: Generate, seed: &str, count: &str, path: &OsStr) -> Result<(), String> {
    let seed: u64 = seed.parse().map_err(|_| format!("not a seed: {seed}"))?;
    let count: u64 = count.parse().map_err(|_| format!("not a count: {count}"))?;
    let file = File::create(path).map_err(|e| format!("cannot create the file: {e}"))?;
    let mut out = BufWriter::new(file);
    generate(seed, count, &mut out)
        .and_then(|()| out.flush())
        .map_err(|e| format!("cannot write the file: {e}"))
}
