//! The texts that are measured.

/// Parts of a trigger's body as one would be written; `#` becomes a number.
const PARTS: [&str; 3] = [
    "    -- order #: total and note
    v_total# := NEW.amount * 2;
    v_note# := 'it''s retail';
",
    "    IF NEW.kind = 'trade' THEN
        SELECT price, stock INTO v_price#, v_stock# FROM items WHERE id = NEW.item_id;
        v_total# := v_price# * NEW.amount; /* before tax */
    ELSIF NEW.amount > 10 THEN
        v_limit# := TRUE;
    ELSE
        RAISE EXCEPTION 'unknown kind %', NEW.kind;
    END IF;
",
    "    IF v_stock# < NEW.amount THEN
        RAISE NOTICE 'low stock';
        UPDATE items SET stock = 0 WHERE id = NEW.item_id;
    END IF;
",
];

/// Each is repeated up to the size.
pub const FAMILIES: [&str; 11] = [
    ";", ":=", "a := 1;", "ELSIF ", "RAISE ", "RAISE LOG;", "END ", "$ ", "$a ",
    "SELECT a INTO v;", "a",
];

/// A realistic body of this many bytes: parts as long as one fits, and a comment up to the size.
pub fn realistic(size: usize) -> String {
    let mut text = String::new();
    for number in 1.. {
        let parts = PARTS.map(|part| part.replace('#', &number.to_string()));
        if parts.iter().all(|part| text.len() + part.len() > size) {
            break;
        }
        for part in parts {
            if text.len() + part.len() <= size {
                text.push_str(&part);
            }
        }
    }
    let rest = size - text.len();
    text + &repeated("-- and so on ", rest)
}

/// A part repeated up to this many bytes.
pub fn repeated(part: &str, size: usize) -> String {
    part.chars().cycle().take(size).collect()
}

/// One statement whose result has millions of bytes: so many columns and a long table name.
pub fn exploding(size: usize) -> String {
    let count = size / 8;
    let (columns, variables) = (vec!["a"; count].join(","), vec!["v"; count].join(","));
    let front = format!("SELECT {columns} INTO {variables} FROM ");
    let table = repeated("t", size - front.len() - 1);
    front + &table + ";"
}

/// A realistic function of this many bytes: a few declarations ahead of a realistic body.
pub fn function(size: usize) -> String {
    let front = "DECLARE
    v_total numeric(10, 2) := 0;
    v_stock int NOT NULL DEFAULT 1;
    v_note text := 'none';
    v_limit bool;
BEGIN
";
    format!("{front}{}END;", realistic(size - front.len() - "END;".len()))
}

/// The most names that a function declares.
const NAMES: usize = 512;

/// What stands before the declarations and behind them.
const FRONT: &str = "DECLARE ";
const BACK: &str = "\nBEGIN END;";

/// Where in a name the two letters stand that tell it apart from the others.
#[derive(Clone, Copy)]
pub enum Letters {
    First,
    Middle,
    Last,
}

/// A name of so many bytes.
fn name(number: usize, length: usize, letters: Letters) -> String {
    let other = length - 2;
    let before = match letters {
        Letters::First => 0,
        Letters::Middle => other / 2,
        Letters::Last => other,
    };
    format!("{}{}{}", "n".repeat(before), two_letters(number), "n".repeat(other - before))
}

/// A function that declares so many long names in this order; the other bytes are the same in all.
pub fn long_names(size: usize, letters: Letters, order: fn(usize) -> usize) -> String {
    let length = (size - FRONT.len() - BACK.len()) / NAMES - " t;".len();
    let names = (0..NAMES).map(|index| format!("{} t;", name(order(index), length, letters)));
    declaring(&names.collect::<String>(), size)
}

/// The orders in which the names are declared.
pub fn rising(index: usize) -> usize {
    index
}

pub fn falling(index: usize) -> usize {
    NAMES - 1 - index
}

pub fn mixed(index: usize) -> usize {
    index * 221 % NAMES
}

fn two_letters(number: usize) -> String {
    [number / 26, number % 26].map(|digit| char::from(b'a' + digit as u8)).iter().collect()
}

/// A function that declares names of this length in falling order, and the last of them again and again.
pub fn repeated_names(size: usize, length: usize, letters: Letters) -> String {
    let one = |index| format!("{} t;", name(falling(index), length, letters));
    let names: String = (0..NAMES).map(one).collect();
    let rest = size - names.len();
    declaring(&(names + &repeated(&one(NAMES - 1), rest)), size)
}

/// A function of this size whose declarations are as many of these as fit.
fn declaring(names: &str, size: usize) -> String {
    let fitting = &names[..names.len().min(size - FRONT.len() - BACK.len())];
    format!("{FRONT}{fitting}{BACK}")
}
