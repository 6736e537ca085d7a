//! Note 10's tables: what each RAISE level becomes, and which tables are refused. Written from the note's
//! words alone, for the published source has no table.

/// The levels, as a table and a body name them.
pub const LEVELS: [&str; 6] = ["DEBUG", "LOG", "INFO", "NOTICE", "WARNING", "EXCEPTION"];

/// The actions, as a table names them.
pub const ACTIONS: [&str; 4] = ["drop", "abort", "fail", "rollback"];

/// The actions that equal no table: EXCEPTION aborts, and the others are dropped.
pub const NO_TABLE: Table = Table { words: [None, None, None, None, None, Some("abort")] };

/// Why a table is refused.
#[derive(Clone, Copy, Debug, PartialEq, Eq)]
pub struct Refusal {
    /// 11, 12 or 13.
    pub number: u32,
    pub place: usize,
}

/// What a table says.
#[derive(Clone, Copy, Debug, PartialEq, Eq)]
pub struct Table {
    /// The action of each level, in the order of `LEVELS`; none for one that is dropped.
    words: [Option<&'static str>; LEVELS.len()],
}

impl Table {
    /// The first bad line decides, then a level that is missing.
    pub fn read(text: &[u8]) -> Result<Self, Refusal> {
        let mut given = [None; LEVELS.len()];
        let mut place = 0;
        for line in text.split_inclusive(|byte| *byte == b'\n') {
            let (level, action) = entry(line).ok_or(Refusal { number: 11, place })?;
            if given[level].replace(action).is_some() {
                return Err(Refusal { number: 12, place });
            }
            place += line.len();
        }
        if given.contains(&None) {
            return Err(Refusal { number: 13, place: text.len() });
        }
        Ok(Self { words: given.map(|action| action.filter(|action| *action != ACTIONS[0])) })
    }

    /// SQLite's word for this level's RAISE; none if it is dropped.
    pub fn word(&self, level: usize) -> Option<String> {
        self.words[level].map(str::to_uppercase)
    }
}

/// The level's place in `LEVELS` and the action of a line, if it is one of the 24 that are well formed.
fn entry(line: &[u8]) -> Option<(usize, &'static str)> {
    let is_line =
        |level: usize, action: &str| format!("{} {action}\n", LEVELS[level]).as_bytes() == line;
    let all = (0..LEVELS.len()).flat_map(|level| ACTIONS.map(|action| (level, action)));
    all.into_iter().find(|(level, action)| is_line(*level, action))
}

#[cfg(test)]
mod tests {
    use super::*;

    const WHOLE: &str =
        "DEBUG drop\nLOG abort\nINFO fail\nNOTICE rollback\nWARNING drop\nEXCEPTION abort\n";

    fn refused(text: &str) -> (u32, usize) {
        let refusal = Table::read(text.as_bytes()).expect_err(text);
        (refusal.number, refusal.place)
    }

    #[test]
    fn each_level_gets_the_word_of_its_line() {
        let lines: Vec<&str> = WHOLE.lines().rev().collect();
        let reversed = lines.join("\n") + "\n";
        for text in [WHOLE, &reversed] {
            let table = Table::read(text.as_bytes()).unwrap();
            let words: Vec<_> = (0..LEVELS.len()).map(|level| table.word(level)).collect();
            let words: Vec<&str> =
                words.iter().map(|word| word.as_deref().unwrap_or("-")).collect();
            assert_eq!(words, ["-", "ABORT", "FAIL", "ROLLBACK", "-", "ABORT"]);
        }
    }

    #[test]
    fn the_first_bad_line_decides() {
        assert_eq!(refused(""), (13, 0));
        assert_eq!(refused("DEBUG drop\n"), (13, 11));
        assert_eq!(refused("DEBUG drop\nDEBUG drop\nx"), (12, 11));
        assert_eq!(refused("DEBUG drop\nx\nDEBUG drop\n"), (11, 11));
        assert_eq!(refused("DEBUG drop\nDEBUG  drop\n"), (11, 11));
        assert_eq!(
            refused(&WHOLE[..WHOLE.len() - 1]),
            (11, WHOLE.len() - "EXCEPTION abort\n".len())
        );
        assert_eq!(refused(&format!("{WHOLE}LOG fail\n")), (12, WHOLE.len()));
        assert_eq!(refused(&format!("{WHOLE}\n")), (11, WHOLE.len()));
        assert_eq!(refused(&WHOLE.replace("INFO fail\n", "")), (13, WHOLE.len() - 10));
        assert_eq!(refused(&WHOLE.replace("INFO", "info")), (11, 21));
        assert_eq!(refused(&WHOLE.replace("fail\n", "fail\r\n")), (11, 21));
        assert_eq!(refused(&WHOLE.replace("fail", "fai\u{e9}")), (11, 21));
        assert_eq!(refused(&WHOLE.replace("fail", "FAIL")), (11, 21));
    }

    #[test]
    fn the_list_of_refused_tables_is_read_so() {
        for refused in texts::refused_tables::all() {
            let told =
                Table::read(&refused.table).map_err(|refusal| (refusal.number, refusal.place));
            assert_eq!(told, Err((refused.number, refused.place)));
        }
    }

    #[test]
    fn the_table_that_equals_none_is_read_so() {
        let text = "EXCEPTION abort\nDEBUG drop\nLOG drop\nINFO drop\nNOTICE drop\nWARNING drop\n";
        assert_eq!(Table::read(text.as_bytes()), Ok(NO_TABLE));
    }
}
