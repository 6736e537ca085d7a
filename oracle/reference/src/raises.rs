//! What a body becomes under a table of levels, by the published passes.
//!
//! The first four passes are the published ones. In the fifth the way from one RAISE to the next is ours, and
//! each statement that is not dropped is handed to the published pass alone, as a RAISE EXCEPTION with the
//! same content; its word ABORT then becomes the table's. So what is read of a message and of USING, and
//! what is refused, is the published source's for every level. Tests hold the walk to it: under the table
//! that equals none for every body, and under other tables wherever the whole text can be respelled.

use crate::context::PlPgSqlContext;
use crate::levels::{Table, LEVELS};
use crate::preprocessor::PlPgSqlPreprocessor;
use crate::scanner::Scanner;
use crate::Error;

/// What stands ahead of a message that the published pass writes.
const ABORTING: &str = "SELECT RAISE(ABORT, ";

const EXCEPTION: &str = "EXCEPTION";

/// What a body becomes, and how many of its RAISE statements are rewritten, dropped and passed.
#[derive(Debug, PartialEq)]
pub struct Raised {
    pub text: String,
    pub counts: Counts,
}

#[derive(Clone, Copy, Debug, Default, PartialEq, Eq)]
pub struct Counts {
    /// Of EXCEPTION, and of the other levels.
    pub exceptions: usize,
    pub others: usize,
    pub dropped: usize,
    pub passed: usize,
}

/// The body call under a table.
pub fn transform_body(body: &str, table: &Table) -> Result<Raised, Error> {
    transform_raises(&before_raises(body)?, table)
}

/// The published passes ahead of the fifth.
fn before_raises(body: &str) -> Result<String, Error> {
    let context = PlPgSqlContext::new();
    let text = Scanner::new(body).requote_dollar_literals();
    let text = PlPgSqlPreprocessor::transform_elsif(&text);
    let text = PlPgSqlPreprocessor::transform_assignments(&text, &context)?;
    Ok(PlPgSqlPreprocessor::transform_select_into(&text, &context))
}

/// Pass 5 under a table.
fn transform_raises(text: &str, table: &Table) -> Result<Raised, Error> {
    let scanner = Scanner::new(text);
    let (mut result, mut counts, mut from) = (String::new(), Counts::default(), 0);
    while let Some(start) = scanner.find_keyword("RAISE", from) {
        result.push_str(&text[from..start]);
        let statement = Statement::of(&text[start..]);
        result.push_str(&statement.under(table, &mut counts)?);
        from = start + statement.whole.len();
    }
    result.push_str(&text[from..]);
    Ok(Raised { text: result, counts })
}

/// The text of a RAISE up to where the search for the next one goes on.
struct Statement<'a> {
    whole: &'a str,
    /// The level's place in `LEVELS` and what stands behind it; none for a RAISE that passes.
    content: Option<(usize, &'a str)>,
}

impl<'a> Statement<'a> {
    /// The one at the front of a text: behind RAISE and one separator byte stands the level.
    fn of(text: &'a str) -> Self {
        let front = text.len().min("RAISE ".len());
        let Some((level, length)) = level_at(&text[front..]) else {
            return Self { whole: &text[..front], content: None };
        };
        let start = front + length;
        let (stop, end) = match Scanner::new(&text[start..]).find_in_code(b';') {
            Some(place) => (start + place, start + place + 1),
            None => (text.len(), text.len()),
        };
        Self { whole: &text[..end], content: Some((level, &text[start..stop])) }
    }

    /// What it becomes.
    fn under(&self, table: &Table, counts: &mut Counts) -> Result<String, Error> {
        let Some((level, content)) = self.content else {
            counts.passed += 1;
            return Ok(self.whole.to_string());
        };
        let Some(word) = table.word(level) else {
            counts.dropped += 1;
            return Ok(String::new());
        };
        match LEVELS[level] {
            EXCEPTION => counts.exceptions += 1,
            _ => counts.others += 1,
        }
        raised(&word, content)
    }
}

/// The level in front, in any letter case, and how long it is: EXCEPTION has its letters, the others run
/// to white space or `;`.
fn level_at(text: &str) -> Option<(usize, usize)> {
    let starts =
        |word: &str| text.get(..word.len()).is_some_and(|front| front.eq_ignore_ascii_case(word));
    let level = LEVELS.iter().position(|level| match *level {
        "INFO" => ["INFO ", "INFO\n", "INFO;"].iter().any(|front| starts(front)),
        other => starts(other),
    })?;
    let length = match LEVELS[level] {
        EXCEPTION => EXCEPTION.len(),
        _ => text.find(|byte: char| byte.is_whitespace() || byte == ';').unwrap_or(text.len()),
    };
    Some((level, length))
}

/// What the published pass makes of a RAISE EXCEPTION with this content, with this word in place of ABORT.
/// Without a `;` the content goes up to the end.
fn raised(word: &str, content: &str) -> Result<String, Error> {
    let alone = format!("RAISE {EXCEPTION}{content}");
    let aborting = PlPgSqlPreprocessor::transform_raise_statements(&alone)?;
    let message = aborting.strip_prefix(ABORTING).expect("a RAISE EXCEPTION aborts");
    Ok(format!("SELECT RAISE({word}, {message}"))
}

#[cfg(test)]
mod tests {
    use super::*;
    use crate::levels::{ACTIONS, NO_TABLE};
    use std::collections::HashSet;
    use texts::random::Random;

    fn table(actions: [&str; 6]) -> Table {
        let line = |(level, action): (&&str, &str)| format!("{level} {action}\n");
        let text: String = LEVELS.iter().zip(actions).map(line).collect();
        Table::read(text.as_bytes()).unwrap()
    }

    fn random_bodies() -> impl Iterator<Item = (String, Table)> {
        let mut random = Random::new(1);
        (0..40_000).map(move |index| {
            let text = match index % 3 {
                0 => texts::body(&mut random),
                1 => texts::any(&mut random),
                _ => texts::levels::raises(&mut random),
            };
            (text, Table::read(&texts::levels::table(&mut random)).unwrap())
        })
    }

    #[test]
    fn the_words_of_the_paper() {
        let aborting = table(["fail", "abort", "rollback", "drop", "drop", "drop"]);
        let texts = [
            ("RAISE LOG'';", "SELECT RAISE(ABORT, );"),
            ("RAISE LOGS 'a';", "SELECT RAISE(ABORT, 'a');"),
            ("RAISE EXCEPTION USING x;v := 1;", "SET v = 1;"),
            ("raise debug USING MESSAGE = 'm';", "SELECT RAISE(FAIL, 'm');"),
            ("RAISE INFO;RAISE INFO", "SELECT RAISE(ROLLBACK, );RAISE INFO"),
            ("RAISE WARNING 'a';x", "x"),
            ("RAISE", "RAISE"),
        ];
        for (text, expected) in texts {
            assert_eq!(transform_body(text, &aborting).unwrap().text, expected);
        }
        let refused = transform_body("RAISE LOG USING x;", &aborting);
        assert!(
            matches!(refused, Err(Error::UnsupportedRaiseUsing { clause }) if clause == "USING x")
        );
    }

    /// The walk is held to the published pass, which has no table.
    #[test]
    fn without_a_table_it_is_the_published_call() {
        let mut rewritten = 0;
        for (text, _) in random_bodies() {
            let published = PlPgSqlPreprocessor::transform_body(&text, &PlPgSqlContext::new());
            let raised = transform_body(&text, &NO_TABLE);
            rewritten += raised.as_ref().map_or(0, |raised| raised.counts.exceptions);
            let raised = raised.map(|raised| raised.text);
            assert_eq!(format!("{raised:?}"), format!("{published:?}"), "{text:?}");
        }
        assert!(rewritten > 5_000, "{rewritten}");
    }

    /// No two of the 4,096 tables give this body the same text, so a wrong word at any RAISE is noticed.
    #[test]
    fn a_wrong_action_of_any_level_is_noticed() {
        let body = LEVELS.map(|level| format!("RAISE {level} '{level}';")).concat();
        let of_number = |number: usize| {
            let action = |level: usize| ACTIONS[number >> (2 * level) & 3];
            table([0, 1, 2, 3, 4, 5].map(action))
        };
        let texts: HashSet<String> = (0..1 << 12)
            .map(|number| transform_body(&body, &of_number(number)).unwrap().text)
            .collect();
        assert_eq!(texts.len(), 1 << 12);
        let all_fail =
            "SELECT RAISE(FAIL, 'DEBUG');SELECT RAISE(FAIL, 'LOG');SELECT RAISE(FAIL, 'INFO');\
                        SELECT RAISE(FAIL, 'NOTICE');SELECT RAISE(FAIL, 'WARNING');\
                        SELECT RAISE(FAIL, 'EXCEPTION');";
        assert!(texts.contains("") && texts.contains(all_fail));
    }

    /// A level of letters alone can be respelled without changing what is live. The text that pass 5 takes
    /// then goes through the published pass as a whole, and each ABORT it wrote becomes the word of its
    /// level, from the left. `None` if a level has another byte, or if a statement holds a second RAISE.
    fn respelled(text: &str, table: &Table) -> Option<Result<String, Error>> {
        let scanner = Scanner::new(text);
        let (mut spelled, mut words, mut from, mut start) = (String::new(), Vec::new(), 0, 0);
        while let Some(place) = scanner.find_keyword("RAISE", start) {
            start = place + "RAISE".len();
            let level_start = text.len().min(start + 1);
            let Some((level, length)) = level_at(&text[level_start..]) else { continue };
            let end = level_start + length;
            let is_plain = text[level_start..end].bytes().all(|byte| byte.is_ascii_alphabetic());
            let statement = Statement::of(&text[place..]).whole.to_uppercase();
            if !is_plain || statement.matches("RAISE").count() > 1 {
                return None;
            }
            let word = table.word(level);
            spelled.push_str(&text[from..level_start]);
            // With the space no byte behind EXCEPTION becomes a part of the other level.
            spelled.push_str(if word.is_some() { EXCEPTION } else { "NOTICE " });
            words.extend(word);
            from = end;
        }
        spelled.push_str(&text[from..]);
        match PlPgSqlPreprocessor::transform_raise_statements(&spelled) {
            Err(error) => Some(Err(error)),
            Ok(result) => exchanged(&result, &words).map(Ok),
        }
    }

    fn exchanged(result: &str, words: &[String]) -> Option<String> {
        let parts: Vec<&str> = result.split(ABORTING).collect();
        if parts.len() != words.len() + 1 {
            return None;
        }
        let rest =
            parts[1..].iter().zip(words).map(|(part, word)| format!("SELECT RAISE({word}, {part}"));
        Some(parts[0].to_string() + &rest.collect::<String>())
    }

    #[test]
    fn respelling_the_whole_text_gives_the_same() {
        let (mut compared, mut left_out, mut others) = (0, 0, 0);
        for (text, table) in random_bodies() {
            let Ok(before) = before_raises(&text) else { continue };
            let raised = transform_raises(&before, &table);
            let Some(expected) = respelled(&before, &table) else {
                left_out += 1;
                continue;
            };
            compared += 1;
            others += raised.as_ref().map_or(0, |raised| raised.counts.others);
            let raised = raised.map(|raised| raised.text);
            assert_eq!(format!("{raised:?}"), format!("{expected:?}"), "{text:?} {table:?}");
        }
        assert!(compared > 5 * left_out && others > 4_000, "{compared} {left_out} {others}");
    }
}
