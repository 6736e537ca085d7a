//! A safe wrapper: strings in, strings or a refusal out.

use std::os::raw::c_uchar;

const BUFFER_SIZE: usize = 65_536;
const RECORD_NUMBERS: usize = 5_130;
const RECORD_SIZE: usize = 10;

// The places in a record, as the header names them; behind each start stands the length.
const NEXT: usize = 0;
const NAME_START: usize = 1;
const TYPE_START: usize = 3;
const HAS_DEFAULT: usize = 5;
const DEFAULT_START: usize = 6;
const CONSTANT: usize = 8;
const NOT_NULL: usize = 9;

extern "C" {
    fn plpgsql_transform_body(
        text: *const c_uchar,
        text_length: usize,
        output: *mut c_uchar,
        output_length: usize,
        work: *mut c_uchar,
        work_length: usize,
        spare: *mut c_uchar,
        spare_length: usize,
        answer: *mut [u32; 4],
    );
    fn plpgsql_preprocess(
        text: *const c_uchar,
        text_length: usize,
        output: *mut c_uchar,
        output_length: usize,
        work: *mut c_uchar,
        work_length: usize,
        spare: *mut c_uchar,
        spare_length: usize,
        declared: *mut c_uchar,
        declared_length: usize,
        records: *mut u32,
        records_length: usize,
        answer: *mut [u32; 4],
    );
    fn plpgsql_transform_body_by_levels(
        text: *const c_uchar,
        text_length: usize,
        table: *const c_uchar,
        table_length: usize,
        output: *mut c_uchar,
        output_length: usize,
        work: *mut c_uchar,
        work_length: usize,
        spare: *mut c_uchar,
        spare_length: usize,
        answer: *mut [u32; 4],
    );
}

/// Why a text is not rewritten.
#[derive(Debug, PartialEq)]
pub enum Refusal {
    TextTooLong,
    /// The place of the first byte over 127.
    NotAscii(usize),
    QualifiedTarget {
        qualifier: String,
        name: String,
    },
    UsingClause(String),
    ResultTooLong,
    TooManyNames,
    /// The offset of the table's first bad line.
    MalformedLine(usize),
    RepeatedLevel(usize),
    /// A level that the table lacks.
    MissingLevel,
}

/// A rewritten function: its body, and its declarations in byte order of names.
pub struct Function<'a> {
    pub body: &'a str,
    pub declarations: Vec<Declaration<'a>>,
}

pub struct Declaration<'a> {
    pub name: &'a str,
    pub data_type: &'a str,
    pub default: Option<&'a str>,
    /// Whether CONSTANT stood before the type.
    pub is_constant: bool,
    /// Whether NOT NULL closed the type.
    pub is_not_null: bool,
}

/// The buffers that are lent to each call.
pub struct Rewriter {
    output: Vec<u8>,
    work: Vec<u8>,
    spare: Vec<u8>,
    declared: Vec<u8>,
    records: Vec<u32>,
}

impl Rewriter {
    pub fn new() -> Self {
        let buffer = || vec![0; BUFFER_SIZE];
        let records = vec![0; RECORD_NUMBERS];
        Self { output: buffer(), work: buffer(), spare: buffer(), declared: buffer(), records }
    }

    pub fn transform_body(&mut self, text: &str) -> Result<&str, Refusal> {
        let Self { output, work, spare, .. } = self;
        let mut answer = [0; 4];
        // Each pointer is valid for its length until the call returns, and the buffers are apart.
        unsafe {
            plpgsql_transform_body(
                text.as_ptr(),
                text.len(),
                output.as_mut_ptr(),
                output.len(),
                work.as_mut_ptr(),
                work.len(),
                spare.as_mut_ptr(),
                spare.len(),
                &mut answer,
            );
        }
        self.result(answer)
    }

    /// The same, where the table says what becomes of a RAISE of each level.
    pub fn transform_body_by_levels(&mut self, text: &str, table: &str) -> Result<&str, Refusal> {
        let Self { output, work, spare, .. } = self;
        let mut answer = [0; 4];
        // Each pointer is valid for its length until the call returns, and the buffers are apart.
        unsafe {
            plpgsql_transform_body_by_levels(
                text.as_ptr(),
                text.len(),
                table.as_ptr(),
                table.len(),
                output.as_mut_ptr(),
                output.len(),
                work.as_mut_ptr(),
                work.len(),
                spare.as_mut_ptr(),
                spare.len(),
                &mut answer,
            );
        }
        self.result(answer)
    }

    pub fn preprocess(&mut self, text: &str) -> Result<Function<'_>, Refusal> {
        let Self { output, work, spare, declared, records } = self;
        let mut answer = [0; 4];
        // Each pointer is valid for its length until the call returns, and the buffers are apart.
        unsafe {
            plpgsql_preprocess(
                text.as_ptr(),
                text.len(),
                output.as_mut_ptr(),
                output.len(),
                work.as_mut_ptr(),
                work.len(),
                spare.as_mut_ptr(),
                spare.len(),
                declared.as_mut_ptr(),
                declared.len(),
                records.as_mut_ptr(),
                records.len(),
                &mut answer,
            );
        }
        let body = self.result(answer)?;
        Ok(Function { body, declarations: self.declarations() })
    }

    /// Follows the chain from the head up to the zero that ends it.
    fn declarations(&self) -> Vec<Declaration<'_>> {
        let mut list = Vec::new();
        let mut next = self.records[NEXT] as usize;
        while next != 0 {
            let record = &self.records[next * RECORD_SIZE..][..RECORD_SIZE];
            let part = |at: usize| text_of(&self.declared, record[at], record[at + 1]);
            let default = (record[HAS_DEFAULT] == 1).then(|| part(DEFAULT_START));
            list.push(Declaration {
                name: part(NAME_START),
                data_type: part(TYPE_START),
                default,
                is_constant: record[CONSTANT] == 1,
                is_not_null: record[NOT_NULL] == 1,
            });
            next = record[NEXT] as usize;
        }
        list
    }

    /// What the numbers of an answer say, with the output that belongs to it.
    fn result(&self, [number, place, length, _]: [u32; 4]) -> Result<&str, Refusal> {
        let output = text_of(&self.output, 0, length);
        match number {
            0 => Ok(output),
            1 => Err(Refusal::TextTooLong),
            2 => Err(Refusal::NotAscii(place as usize)),
            4 => {
                let (qualifier, name) = output.split_at(place as usize);
                let [qualifier, name] = [qualifier, &name[1..]].map(str::to_string);
                Err(Refusal::QualifiedTarget { qualifier, name })
            }
            5 => Err(Refusal::UsingClause(output.to_string())),
            6 => Err(Refusal::ResultTooLong),
            7 => Err(Refusal::TooManyNames),
            11 => Err(Refusal::MalformedLine(place as usize)),
            12 => Err(Refusal::RepeatedLevel(place as usize)),
            13 => Err(Refusal::MissingLevel),
            // 3 is a buffer that is too short, and ours are long enough.
            other => unreachable!("number {other}"),
        }
    }
}

/// A part of a buffer. Results are ASCII, as every text that is not refused.
fn text_of(buffer: &[u8], start: u32, length: u32) -> &str {
    let part = &buffer[start as usize..][..length as usize];
    std::str::from_utf8(part).expect("results are ASCII")
}
