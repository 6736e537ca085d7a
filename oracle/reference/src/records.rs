//! The records and the packed text that the scope paper and Note 5 want for declarations.

use sizes::RECORD;

use crate::block;
use crate::constants::{is_put_back, Variable};
use crate::declarations::{self, Declaration};
use crate::preprocessor::PlPgSqlPreprocessor;

/// The places of the marks in a record.
const CONSTANT: usize = 8;
const NOT_NULL: usize = 9;

/// What the declaration text and the record numbers hold in front of their zeros.
#[derive(Debug, Default, PartialEq)]
pub struct Records {
    pub text: Vec<u8>,
    pub numbers: Vec<u32>,
}

impl Records {
    /// The head, then a record for each name in this order.
    pub fn new(order: &[String], variables: &[Variable]) -> Self {
        let mut records = Self { text: Vec::new(), numbers: vec![0; RECORD] };
        for name in order {
            let variable = variables.iter().find(|one| one.name == *name);
            records.add(variable.expect("each name in the order is declared"));
        }
        records.chain(order);
        records
    }

    /// How many records there are behind the head.
    pub fn count(&self) -> usize {
        (self.numbers.len() / RECORD).saturating_sub(1)
    }

    /// How many records have the mark for CONSTANT, and for NOT NULL.
    pub fn marked(&self) -> [usize; 2] {
        let records = self.numbers.chunks(RECORD);
        [CONSTANT, NOT_NULL].map(|mark| records.clone().filter(|record| record[mark] == 1).count())
    }

    fn add(&mut self, variable: &Variable) {
        let name = self.pack(&variable.name);
        let data_type = self.pack(&variable.data_type);
        let default = variable.default.as_ref().map_or([0; 2], |text| self.pack(text));
        let is_present = u32::from(variable.default.is_some());
        let marks = [variable.is_constant, variable.is_not_null].map(u32::from);
        let numbers = [&[0], &name[..], &data_type, &[is_present], &default, &marks];
        self.numbers.extend(numbers.concat());
    }

    /// Packs one text; the answer is its start and length.
    fn pack(&mut self, text: &str) -> [u32; 2] {
        let start = self.text.len();
        self.text.extend(text.as_bytes());
        [start as u32, text.len() as u32]
    }

    /// Sets the first number of the head and of each record: the chain in byte order of names.
    fn chain(&mut self, order: &[String]) {
        let mut places: Vec<usize> = (0..order.len()).collect();
        places.sort_by_key(|place| order[*place].as_bytes());
        let mut last = 0;
        for place in places {
            self.numbers[last * RECORD] = place as u32 + 1;
            last = place + 1;
        }
    }
}

/// The names in order of first declaration. The reference keeps no such order, so each part of the
/// block is handed to it as a block of its own.
pub fn first_declared(text: &str) -> Vec<String> {
    let mut order = Vec::new();
    for part in block::parts(text) {
        let alone = format!("DECLARE {part}\nBEGIN");
        let (_, context) = PlPgSqlPreprocessor::preprocess(&alone).expect("nothing to refuse");
        for declaration in declarations::list(&context).expect("a readable context") {
            if !order.contains(&declaration.name) {
                order.push(declaration.name);
            }
        }
    }
    order
}

/// Whether the chain from the head leads through exactly the published source's declarations, in this
/// order, with CONSTANT and NOT NULL put back into the types of the marked records.
pub fn chain_leads_through(text: &[u8], numbers: &[u32], list: &[Declaration]) -> bool {
    let mut place = numbers[0] as usize;
    for expected in list {
        let Some(record) = numbers.get(place * RECORD..(place + 1) * RECORD) else {
            return false;
        };
        if place == 0 || !is_record_of(record, text, expected) {
            return false;
        }
        place = record[0] as usize;
    }
    place == 0
}

fn is_record_of(record: &[u32], text: &[u8], expected: &Declaration) -> bool {
    let part = |at: usize| {
        let (start, length) = (record[at] as usize, record[at + 1] as usize);
        text.get(start..start + length)
    };
    let default = if record[5] == 1 { part(6) } else { None };
    let is_type = |data_type: &[u8]| match [record[CONSTANT], record[NOT_NULL]] {
        marks @ [0 | 1, 0 | 1] => {
            let [is_constant, is_not_null] = marks.map(|mark| mark == 1);
            is_put_back(&expected.data_type, data_type, is_constant, is_not_null)
        }
        _ => false,
    };
    part(1) == Some(expected.name.as_bytes())
        && part(3).is_some_and(is_type)
        && default == expected.default.as_ref().map(String::as_bytes)
}

#[cfg(test)]
mod tests {
    use super::*;

    /// A record without a mark and with the word in its type meets the note's condition, which puts no
    /// word back there. Only the exact records tell it from the right one.
    #[test]
    fn a_record_that_is_not_marked_is_noticed() {
        let published = Declaration {
            name: "a".to_string(),
            data_type: "CONSTANT int".to_string(),
            default: None,
        };
        let order = ["a".to_string()];
        let list = [published];
        let unmarked = Records::new(&order, &[Variable::unmarked("a", "CONSTANT int", None)]);
        let wanted = Records::new(&order, &Variable::all(&list).unwrap());
        assert!(chain_leads_through(&unmarked.text, &unmarked.numbers, &list));
        assert!(chain_leads_through(&wanted.text, &wanted.numbers, &list));
        assert_ne!(unmarked, wanted);
    }
}
