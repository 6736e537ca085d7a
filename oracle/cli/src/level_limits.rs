//! Results on both sides of the limit where RAISE LOG becomes a ROLLBACK, which takes 25 bytes for 10, and the
//! order of the refusals for a level that is dropped without a table. The papers say what must come.

use crate::body_limits::{select_into, set_lines};
use crate::function_limits;
use crate::level_rows::table;
use crate::runs::{Run, Runs};
use crate::stored_call::{Answer, Body, ByLevels, Function};

const LOG: &[u8] = b"RAISE LOG;";

const ROLLBACK: &[u8] = b"SELECT RAISE(ROLLBACK, );";

const CLAUSE: &[u8] = b"RAISE LOG USING x;";

fn rolling_back<S>(stored: S) -> ByLevels<S> {
    ByLevels { table: table(["rollback"; 6]), stored }
}

/// A SELECT INTO of so many pairs with these bytes behind it: accepted with the lines and the other bytes
/// behind them.
fn accepted(pairs: usize, behind: &[Run], becomes: &[Run]) -> Body {
    let answer = Answer { number: 0, place: 0, output: set_lines(pairs, becomes) };
    Body { text: select_into(pairs, behind), answer }
}

fn refused(pairs: usize, behind: &[Run], answer: Answer) -> Body {
    Body { text: select_into(pairs, behind), answer }
}

pub fn all() -> Vec<ByLevels<Body>> {
    results().into_iter().chain(orders()).map(rolling_back).collect()
}

/// Results of 65,536 bytes pass, those of 65,537 do not. 1,871 lines have 65,484 bytes.
fn results() -> [Body; 6] {
    let too_long = || Answer::refused(6, 0);
    let text = Runs::new(&[(1_638, LOG), (4, b";")]);
    let output = Runs::new(&[(1_638, ROLLBACK), (4, b";")]);
    [
        Body { text, answer: Answer { number: 0, place: 0, output } },
        accepted(1_871, &[(1, LOG), (27, b"a")], &[(1, ROLLBACK), (27, b"a")]),
        refused(1_871, &[(1, LOG), (28, b"a")], too_long()),
        // Texts of the greatest length, 16,384 bytes: 1,007 pairs have 4,047 and become 35,244, and 1,008
        // have 4,051 and become 35,279.
        accepted(1_007, &[(1_197, LOG), (367, b";")], &[(1_197, ROLLBACK), (367, b";")]),
        refused(1_008, &[(1_195, LOG), (383, b";")], too_long()),
        // 65,519 bytes before pass 5 and 65,544 behind it.
        refused(1_872, &[(1, LOG)], too_long()),
    ]
}

/// 4 in pass 3, then 6 in pass 4, then 5 in pass 5, which comes before its 6.
fn orders() -> [Body; 5] {
    let using = || Answer::clause("USING x");
    let target = (1, &b"NEW.v := 1;"[..]);
    [
        Body { text: Runs::one(CLAUSE), answer: using() },
        refused(1_867, &[(10, LOG), (1, CLAUSE)], using()),
        refused(1_867, &[(1, CLAUSE), (10, LOG)], using()),
        refused(1_872, &[(1, CLAUSE)], Answer::refused(6, 0)),
        Body { text: Runs::new(&[(1, CLAUSE), target]), answer: Answer::qualified("NEW", "v") },
    ]
}

/// 7 comes before 5 and 6.
pub fn functions() -> impl Iterator<Item = ByLevels<Function>> {
    let with_names = |count, body: &[Run], answer| {
        Function::new(function_limits::declaring(count, body), answer, &[])
    };
    let body = [(1, &b"BEGIN "[..]), (1, CLAUSE)];
    [
        with_names(513, &body, Answer::refused(7, 0)),
        with_names(512, &body, Answer::clause("USING x")),
    ]
    .into_iter()
    .map(rolling_back)
}

#[cfg(test)]
mod tests {
    use super::*;
    use crate::answer::rewritten_under;
    use crate::stored_call::LIMIT;
    use sizes::BUFFER_SIZE;

    /// The published passes have no limits, so they give the same where none is met.
    #[test]
    fn the_published_passes_agree_up_to_the_limits() {
        let mut lengths = Vec::new();
        for ByLevels { table, stored: Body { text, answer } } in all() {
            let text = String::from_utf8(text.bytes()).unwrap();
            let got = rewritten_under(&text, &table.bytes()).unwrap();
            if answer.number == 6 {
                lengths.push(got.output.len());
                continue;
            }
            assert_eq!((got.number, got.place), (answer.number, answer.place));
            assert!(got.output.bytes() == answer.output.bytes());
            lengths.push(got.output.len());
        }
        let limit = BUFFER_SIZE;
        assert_eq!(lengths[..6], [40_954, limit, limit + 1, limit, limit + 1, 65_544]);
        let longest = results().map(|body| body.text.len());
        assert_eq!([longest[0], longest[3], longest[4]], [LIMIT; 3]);
    }
}
