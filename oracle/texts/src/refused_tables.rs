//! Tables of levels that are refused. Numbers and places are Note 10's, written down by hand.

/// A table, with its number and place.
pub struct Refused {
    pub table: Vec<u8>,
    pub number: u32,
    pub place: usize,
}

const LEVELS: [&str; 6] = ["DEBUG", "LOG", "INFO", "NOTICE", "WARNING", "EXCEPTION"];

const ACTIONS: [&str; 4] = ["drop", "abort", "fail", "rollback"];

/// Lines that are malformed, the last two without a newline.
const MALFORMED: [&[u8]; 28] = [
    b"\n", b" \n", b"\r\n", b"LOG\n", b"LOG \n", b"LOG drop\r\n", b"LOG drop \n", b" LOG drop\n",
    b"LOG  drop\n", b"LOG\tdrop\n", b"LOG\x0bdrop\n", b"log drop\n", b"Log drop\n", b"LOG DROP\n",
    b"LOG Drop\n", b"LOGS drop\n", b"LO drop\n", b"LOG drops\n", b"LOG dro\n", b"LOG ignore\n",
    b"ERROR abort\n", b"drop LOG\n", b"LOG drop drop\n", b"LOG dr\xc3\xb6p\n", b"\xffLOG drop\n",
    b"LOG drop\0\n", b"LOG drop", b"x",
];

/// A well-formed line for each of the first levels.
fn lines(count: usize) -> String {
    LEVELS[..count].iter().map(|level| format!("{level} fail\n")).collect()
}

/// Every kind of refused table.
pub fn all() -> Vec<Refused> {
    malformed().into_iter().chain(repeated()).chain(missing()).chain(long()).collect()
}

fn refused(number: u32, place: usize, parts: &[&[u8]]) -> Refused {
    Refused { table: parts.concat(), number, place }
}

/// 11: every malformed line as the first one, behind one level, behind all, and ahead of other faults.
fn malformed() -> Vec<Refused> {
    let whole = lines(LEVELS.len());
    let mut list = Vec::new();
    for line in MALFORMED {
        list.push(refused(11, 0, &[line]));
        list.push(refused(11, 11, &[b"DEBUG fail\n", line]));
        list.push(refused(11, whole.len(), &[whole.as_bytes(), line]));
        list.push(refused(11, 0, &[line, b"x\nLOG drop\nLOG drop\n"]));
    }
    // A line that is malformed and would repeat a level.
    list.push(refused(11, 11, &[b"DEBUG fail\nDEBUG  fail\n"]));
    list
}

/// 12: every level twice with every action, at once and behind all levels, and ahead of a malformed line.
fn repeated() -> Vec<Refused> {
    let whole = lines(LEVELS.len());
    let mut list = vec![refused(12, 11, &[b"DEBUG drop\nDEBUG drop\nx"])];
    for (index, level) in LEVELS.iter().enumerate() {
        let front = lines(index + 1);
        for action in ACTIONS {
            let line = format!("{level} {action}\n");
            list.push(refused(12, front.len(), &[front.as_bytes(), line.as_bytes()]));
            list.push(refused(12, whole.len(), &[whole.as_bytes(), line.as_bytes(), b"x"]));
        }
    }
    list
}

/// 13: every level alone missing, and every level missing with those behind it, up to the empty table.
fn missing() -> Vec<Refused> {
    let whole = lines(LEVELS.len());
    let mut list = Vec::new();
    for (index, level) in LEVELS.iter().enumerate() {
        let other = whole.replace(&format!("{level} fail\n"), "");
        list.push(refused(13, other.len(), &[other.as_bytes()]));
        let before = lines(index);
        list.push(refused(13, before.len(), &[before.as_bytes()]));
    }
    list
}

/// A table may have any length.
fn long() -> Vec<Refused> {
    let line = vec![b'A'; 100_000];
    vec![
        refused(11, 0, &[&line]),
        refused(11, 11, &[b"DEBUG fail\n", &line]),
        refused(12, 11, &[&b"DEBUG fail\n".repeat(10_000)]),
    ]
}
