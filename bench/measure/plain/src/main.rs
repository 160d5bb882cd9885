//! Prints the commands of a batch file like `persod plan` without options, written in plain Rust.
//!
//! `bench/run instructions` compares both programs. Like persod, this program encodes many hexadecimal digits at a
//! time, whereas the crate `hex` encodes one at a time. It checks the form of the fields, but not the faults of records.
use std::collections::HashMap;
use std::error::Error;
use std::io::{self, Read, Write};

const MOST: usize = 255;

struct Row {
    rank: u16,
    enciphered: u8,
    coded: Vec<u8>,
}

struct Application {
    aid: Vec<u8>,
    rows: Vec<Row>,
}

struct Record {
    name: String,
    applications: Vec<Application>,
}

fn main() -> Result<(), Box<dyn Error>> {
    let mut raw = Vec::new();
    io::stdin().lock().read_to_end(&mut raw)?;
    let mut text = Vec::new();
    for record in records(&raw)? {
        writeln!(text, "record {}", record.name)?;
        for application in record.applications {
            put_application(&mut text, application);
        }
    }
    Ok(io::stdout().lock().write_all(&text)?)
}

// Returns the records of a batch, and the applications of each record, in the order of their first rows.
fn records(raw: &[u8]) -> Result<Vec<Record>, Box<dyn Error>> {
    let mut records: Vec<Record> = Vec::new();
    let mut places = HashMap::new();
    let mut reader = csv::Reader::from_reader(raw);
    let mut fields = csv::ByteRecord::new();
    while reader.read_byte_record(&mut fields)? {
        if fields.len() != 6 {
            return Err("a row must have six fields".into());
        }
        let name = std::str::from_utf8(&fields[0])?;
        let place = *places.entry(name.to_owned()).or_insert(records.len());
        if place == records.len() {
            records.push(Record {
                name: name.to_owned(),
                applications: Vec::new(),
            });
        }
        let aid = bytes_of(&fields[1])?;
        let row = Row {
            rank: std::str::from_utf8(&fields[2])?.parse()?,
            enciphered: enciphered(&fields[3])?,
            coded: bytes_of(&fields[5])?,
        };
        tolerant(&fields[4])?;
        let applications = &mut records[place].applications;
        match applications.iter_mut().find(|it| it.aid == aid) {
            Some(application) => application.rows.push(row),
            None => applications.push(Application {
                aid,
                rows: vec![row],
            }),
        }
    }
    Ok(records)
}

fn bytes_of(field: &[u8]) -> Result<Vec<u8>, Box<dyn Error>> {
    if field.len() % 2 != 0 {
        return Err("the number of digits must be even".into());
    }
    let mut bytes = vec![0; field.len() / 2];
    let mut all = 0;
    for (byte, pair) in bytes.iter_mut().zip(field.chunks_exact(2)) {
        let (high, low) = (digit(pair[0]), digit(pair[1]));
        all |= high | low;
        *byte = high << 4 | low & 15;
    }
    if all > 15 {
        return Err("the digits must be hexadecimal".into());
    }
    Ok(bytes)
}

// Returns the value of a digit, or 255 for another byte. Arithmetic instead of a table lets the compiler use vector instructions.
fn digit(c: u8) -> u8 {
    match c {
        b'0'..=b'9' => c - b'0',
        b'A'..=b'F' | b'a'..=b'f' => c % 32 + 9,
        _ => 255,
    }
}

// Bits 7 and 6 of P1.
fn enciphered(field: &[u8]) -> Result<u8, Box<dyn Error>> {
    match field {
        b"0" => Ok(0),
        b"1" => Ok(0x60),
        b"2" => Ok(0x20),
        _ => Err("enc must be 0, 1 or 2".into()),
    }
}

fn tolerant(field: &[u8]) -> Result<bool, Box<dyn Error>> {
    match field {
        b"0" => Ok(false),
        b"1" => Ok(true),
        _ => Err("tol must be 0 or 1".into()),
    }
}

fn put_application(text: &mut Vec<u8>, mut application: Application) {
    put_command(text, [0x00, 0xA4, 0x04, 0x00], &application.aid);
    application.rows.sort_by_key(|row| row.rank);
    let segments: Vec<(u8, Vec<u8>)> = application
        .rows
        .chunk_by(|a, b| a.rank == b.rank)
        .map(|rows| {
            let parts: Vec<&[u8]> = rows.iter().map(|row| row.coded.as_slice()).collect();
            (rows[0].enciphered, parts.concat())
        })
        .collect();
    let count: usize = segments.iter().map(|it| it.1.len().div_ceil(MOST)).sum();
    let mut block = 0;
    for (enciphered, bytes) in segments {
        for piece in bytes.chunks(MOST) {
            let last = if block + 1 == count { 0x80 } else { 0 };
            put_command(text, [0x80, 0xE2, last + enciphered, block as u8], piece);
            block += 1;
        }
    }
}

fn put_command(text: &mut Vec<u8>, head: [u8; 4], data: &[u8]) {
    put_hex(text, &head);
    put_hex(text, &[data.len() as u8]);
    put_hex(text, data);
    text.push(b'\n');
}

fn put_hex(text: &mut Vec<u8>, bytes: &[u8]) {
    let at = text.len();
    text.resize(at + 2 * bytes.len(), 0);
    for (pair, byte) in text[at..].chunks_exact_mut(2).zip(bytes) {
        pair[0] = upper_digit(byte >> 4);
        pair[1] = upper_digit(byte & 15);
    }
}

fn upper_digit(value: u8) -> u8 {
    if value < 10 {
        b'0' + value
    } else {
        b'A' + (value - 10)
    }
}
