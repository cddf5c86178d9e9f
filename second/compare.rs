//! Two outputs of one script, line by line.

use crate::script;

/// What is said of the first difference; `None` if the outputs are equal.
pub fn first_difference(script: &[u8], first: &[u8], second: &[u8]) -> Option<String> {
    let mut answers = [script::lines(first), script::lines(second)];
    for (number, line) in script::lines(script).enumerate() {
        if !prints(line) {
            continue;
        }
        let [one, other] = &mut answers;
        let (one, other) = (one.next(), other.next());
        if one != other || one.is_none() {
            return Some(report(number + 1, line, one, other));
        }
    }
    let [one, other] = &mut answers;
    match (one.next(), other.next()) {
        (None, None) => None,
        (one, other) => Some(report(0, b"(past the script's end)", one, other)),
    }
}

/// Reading a line needs no state, so the script alone tells which lines are answered.
fn prints(line: &[u8]) -> bool {
    match script::read(line) {
        Ok(None) => false,
        Ok(Some(command)) => command.prints(),
        Err(_) => true,
    }
}

fn report(number: usize, line: &[u8], one: Option<&[u8]>, other: Option<&[u8]>) -> String {
    let none: &[u8] = b"(no line)";
    let (line, one, other) =
        (shown(line), shown(one.unwrap_or(none)), shown(other.unwrap_or(none)));
    format!(
        "first difference, script line {number}:\n  {line}\nfirst:\n  {one}\nsecond:\n  {other}"
    )
}

const SHOWN: usize = 2_000;

fn shown(line: &[u8]) -> String {
    let text = String::from_utf8_lossy(&line[..line.len().min(SHOWN)]).into_owned();
    if line.len() > SHOWN {
        return format!("{text} ... ({} bytes)", line.len());
    }
    text
}
