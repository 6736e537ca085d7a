//! Answers questions about bodies and functions with the proved library, in the oracle's line format.

use std::io::{self, BufRead, BufWriter, Write};
use std::process::ExitCode;

use library::Answer;
use sizes::{BUFFER_SIZE, RECORD, RECORD_NUMBERS};
use texts::hex;

/// The field of a default that is not present.
const ABSENT: &str = ".";

fn main() -> ExitCode {
    let mut out = BufWriter::new(io::stdout().lock());
    let result = run(io::stdin().lock(), &mut out);
    // The answers before an error are still handed out.
    let result = result.and(out.flush().map_err(|error| error.to_string()));
    match result {
        Ok(()) => ExitCode::SUCCESS,
        Err(why) => {
            eprintln!("oracle: {why}");
            ExitCode::from(2)
        }
    }
}

fn run(input: impl BufRead, out: &mut impl Write) -> Result<(), String> {
    for (index, line) in input.lines().enumerate() {
        let line = line.map_err(|error| error.to_string())?;
        let reply = reply(&line).map_err(|why| format!("line {}: {why}", index + 1))?;
        writeln!(out, "{reply}").map_err(|error| error.to_string())?;
    }
    Ok(())
}

fn reply(line: &str) -> Result<String, String> {
    match line.split(' ').collect::<Vec<_>>().as_slice() {
        ["body", text] => Ok(body(&hex::decode(text)?, None)),
        ["function", text] => Ok(function(&hex::decode(text)?, None)),
        ["body_by_levels", table, text] => {
            Ok(body(&hex::decode(text)?, Some(&hex::decode(table)?)))
        }
        ["function_by_levels", table, text] => {
            Ok(function(&hex::decode(text)?, Some(&hex::decode(table)?)))
        }
        _ => Err(
            "the library is asked `body TEXT`, `function TEXT`, `body_by_levels TABLE TEXT` and \
                  `function_by_levels TABLE TEXT` alone"
                .to_string(),
        ),
    }
}

fn body(text: &[u8], table: Option<&[u8]>) -> String {
    let [mut output, mut work, mut spare] = [(); 3].map(|()| vec![0; BUFFER_SIZE]);
    let (o, w, s) = (&mut output, &mut work, &mut spare);
    let answer = match table {
        Some(table) => library::transform_body_by_levels(text, table, o, w, s),
        None => library::transform_body(text, o, w, s),
    };
    numbers(&answer, &output)
}

fn function(text: &[u8], table: Option<&[u8]>) -> String {
    let [mut output, mut work, mut spare, mut declared] = [(); 4].map(|()| vec![0; BUFFER_SIZE]);
    let mut records = vec![0; RECORD_NUMBERS];
    let (o, w, s, d) = (&mut output, &mut work, &mut spare, &mut declared);
    let answer = match table {
        Some(table) => library::preprocess_by_levels(text, table, o, w, s, d, &mut records),
        None => library::preprocess(text, o, w, s, d, &mut records),
    };
    numbers(&answer, &output) + &declarations(&declared, &records)
}

/// The four numbers and the output.
fn numbers(answer: &Answer, output: &[u8]) -> String {
    let [number, place, length, count] = *answer;
    let output = hex::encode(&output[..length as usize]);
    format!("{number} {place} {length} {count} {output}")
}

/// The fields of the records along the chain, which leads through them in byte order of names: name,
/// type, default, and the marks for CONSTANT and NOT NULL.
fn declarations(declared: &[u8], numbers: &[u32]) -> String {
    let records: Vec<&[u32]> = numbers.chunks(RECORD).collect();
    let mut line = String::new();
    let mut place = records[0][0] as usize;
    while place != 0 {
        line.push_str(&fields(declared, records[place]));
        place = records[place][0] as usize;
    }
    line
}

fn fields(declared: &[u8], record: &[u32]) -> String {
    let text = |start: u32, length: u32| {
        let start = start as usize;
        hex::encode(&declared[start..start + length as usize])
    };
    let default = if record[5] == 1 { text(record[6], record[7]) } else { ABSENT.to_string() };
    let (name, data_type) = (text(record[1], record[2]), text(record[3], record[4]));
    format!(" {name} {data_type} {default} {} {}", record[8], record[9])
}
