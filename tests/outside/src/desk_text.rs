//! The text that the desk program reads and prints, by 01, "The desk program".
//!
//! Line 1 gives the numbers of servers, places and slots; each later line is one step. A text is a script or is
//! refused whole. Numbers out of range in a step are no matter of the text: such a line is good, and its step is
//! refused by its own code.

const MOST_BYTES: usize = 16_384;
const MOST_STEPS: usize = 512;
const MOST_SERVERS: u32 = 16;
/// The desk's own limit of places, lower than the table's.
const MOST_PLACES: u32 = 128;
const MOST_SLOTS: u32 = 16;

/// Five words: a step (kind and four arguments) or an answer (code, server, origin, clock, value).
pub type FiveWords = [u32; 5];

/// What a text is, by 01: a script, or one of the two refusals.
#[derive(Clone, Debug, PartialEq, Eq)]
pub enum Reading {
    /// Every line is good and the text is within its limits.
    Script(Script),
    /// The first bad line, counted from 1.
    BadLine(usize),
    /// More bytes than the limit, or good lines up to line 513 and then one more line.
    TooLong,
}

/// The numbers of line 1 and the steps of the lines after it, in their order.
#[derive(Clone, Debug, PartialEq, Eq)]
pub struct Script {
    /// N, the number of servers.
    pub servers: u32,
    /// L, the number of places in each log.
    pub places: u32,
    /// P, the number of session slots.
    pub slots: u32,
    /// The steps, unused words being 0.
    pub steps: Vec<FiveWords>,
}

/// How the steps of one kind stand in the text.
struct Form {
    kind: u32,
    letter: u8,
    arguments: usize,
}

/// The lines of 01 for steps, in the order of the kinds.
#[rustfmt::skip]
const FORMS: [Form; 5] = [
    Form { kind: 1, letter: b'o', arguments: 2 },
    Form { kind: 2, letter: b'c', arguments: 1 },
    Form { kind: 3, letter: b'r', arguments: 3 },
    Form { kind: 4, letter: b'w', arguments: 4 },
    Form { kind: 5, letter: b'x', arguments: 3 },
];

/// What the text is: any bytes, of any length.
pub fn read(text: &[u8]) -> Reading {
    if text.len() > MOST_BYTES {
        return Reading::TooLong;
    }
    // Nothing after the last line feed is no line; something after it is a line, and a bad one.
    let mut lines = text.split_inclusive(|byte| *byte == b'\n');
    // An empty input has no line 1, and that counts as bad.
    let mut script = match lines.next().and_then(read_sizes) {
        Some(script) => script,
        None => return Reading::BadLine(1),
    };
    for (steps_before, line) in lines.enumerate() {
        if steps_before == MOST_STEPS {
            return Reading::TooLong;
        }
        match read_step(line) {
            Some(step) => script.steps.push(step),
            None => return Reading::BadLine(steps_before + 2),
        }
    }
    Reading::Script(script)
}

/// Line 1 as a script that has no steps yet.
fn read_sizes(line: &[u8]) -> Option<Script> {
    let fields = fields(line)?;
    if fields.len() != 3 {
        return None;
    }
    Some(Script {
        servers: size(fields[0], MOST_SERVERS)?,
        places: size(fields[1], MOST_PLACES)?,
        slots: size(fields[2], MOST_SLOTS)?,
        steps: Vec::new(),
    })
}

fn size(field: &[u8], most: u32) -> Option<u32> {
    number(field).filter(|size| (1..=most).contains(size))
}

fn read_step(line: &[u8]) -> Option<FiveWords> {
    let fields = fields(line)?;
    let (letter, arguments) = fields.split_first()?;
    let form = FORMS.iter().find(|form| *letter == [form.letter])?;
    if arguments.len() != form.arguments {
        return None;
    }
    let mut step = [form.kind, 0, 0, 0, 0];
    for (word, field) in step[1..].iter_mut().zip(arguments) {
        *word = number(field)?;
    }
    Some(step)
}

/// The pieces of a line between its spaces; None without the line feed. A space too many makes an empty piece, which
/// is neither a letter nor a number.
fn fields(line: &[u8]) -> Option<Vec<&[u8]>> {
    let line = line.strip_suffix(b"\n")?;
    Some(line.split(|byte| *byte == b' ').collect())
}

/// A decimal without leading zeros, up to 4294967295.
fn number(field: &[u8]) -> Option<u32> {
    let leading_zero = field.len() > 1 && field[0] == b'0';
    if field.is_empty() || leading_zero {
        return None;
    }
    let mut number: u32 = 0;
    for byte in field {
        if !byte.is_ascii_digit() {
            return None;
        }
        number = number.checked_mul(10)?.checked_add(u32::from(byte - b'0'))?;
    }
    Some(number)
}

/// The text of a script; None if a step is no line of text (a kind other than 1 to 5, or an unused word that is not 0).
/// The limits are not looked at, so that texts beyond them can be spelled too.
pub fn spell(script: &Script) -> Option<Vec<u8>> {
    let sizes = [script.servers, script.places, script.slots];
    let mut text = format!("{}\n", with_single_spaces(&sizes));
    for step in &script.steps {
        text.push_str(&spell_step(step)?);
    }
    Some(text.into_bytes())
}

fn spell_step(step: &FiveWords) -> Option<String> {
    let form = FORMS.iter().find(|form| form.kind == step[0])?;
    let (arguments, unused) = step[1..].split_at(form.arguments);
    if unused.iter().any(|word| *word != 0) {
        return None;
    }
    let letter = char::from(form.letter);
    Some(format!("{} {}\n", letter, with_single_spaces(arguments)))
}

fn with_single_spaces(numbers: &[u32]) -> String {
    let decimals: Vec<String> = numbers.iter().map(u32::to_string).collect();
    decimals.join(" ")
}

/// What the desk prints for answers: one line each.
pub fn print_answers(answers: &[FiveWords]) -> Vec<u8> {
    let mut text = String::new();
    for answer in answers {
        text.push_str(&with_single_spaces(answer));
        text.push('\n');
    }
    text.into_bytes()
}

/// The whole output of the desk for a text, where `answer` gives the answers to a script's steps from a fresh table.
/// A refused text is never given to `answer`.
pub fn output(text: &[u8], answer: impl FnOnce(&Script) -> Vec<FiveWords>) -> Vec<u8> {
    match read(text) {
        Reading::Script(script) => print_answers(&answer(&script)),
        Reading::BadLine(line) => format!("bad line {}\n", line).into_bytes(),
        Reading::TooLong => b"too long\n".to_vec(),
    }
}

#[cfg(test)]
mod tests;
