//! Cuts a failing text down to a small one that still fails.

/// How many texts are tried for one cut.
const MOST_TRIES: usize = 3_000;

/// The smallest text found that still fails: lines left out, then numbers made smaller.
pub fn cut(text: &[u8], mut fails: impl FnMut(&[u8]) -> bool) -> Vec<u8> {
    let mut tries = 0;
    let mut still_fails = |text: &[u8]| {
        tries += 1;
        tries <= MOST_TRIES && fails(text)
    };
    let mut smallest = text.to_vec();
    loop {
        let before = smallest.clone();
        smallest = without_lines(smallest, &mut still_fails);
        smallest = with_smaller_numbers(smallest, &mut still_fails);
        if smallest == before {
            return smallest;
        }
    }
}

/// Leaves out lines behind the first: many at a time first, then one by one.
fn without_lines(text: Vec<u8>, fails: &mut impl FnMut(&[u8]) -> bool) -> Vec<u8> {
    let mut lines: Vec<Vec<u8>> = text.split_inclusive(|byte| *byte == b'\n').map(<[u8]>::to_vec).collect();
    let mut width = lines.len() / 2;
    while width > 0 {
        let mut end = lines.len();
        while end > width {
            let kept = [&lines[..end - width], &lines[end..]].concat();
            if fails(&kept.concat()) {
                lines = kept;
            }
            end -= width.min(end);
        }
        width /= 2;
    }
    lines.concat()
}

/// Replaces each number by a smaller one where that still fails, those at the end first.
fn with_smaller_numbers(text: Vec<u8>, fails: &mut impl FnMut(&[u8]) -> bool) -> Vec<u8> {
    let mut fields: Vec<Vec<u8>> = text.split_inclusive(|byte| b" \n".contains(byte)).map(<[u8]>::to_vec).collect();
    for place in (0..fields.len()).rev() {
        for smaller in smaller_than(&fields[place]) {
            let kept = std::mem::replace(&mut fields[place], smaller);
            if fails(&fields.concat()) {
                break;
            }
            fields[place] = kept;
        }
    }
    fields.concat()
}

/// A field's number made smaller, with what ends the field; the smallest first.
fn smaller_than(field: &[u8]) -> Vec<Vec<u8>> {
    let digits = field.iter().take_while(|byte| byte.is_ascii_digit()).count();
    let (digits, rest) = field.split_at(digits);
    let number: u32 = match String::from_utf8_lossy(digits).parse() {
        Ok(number) => number,
        Err(_) => return Vec::new(),
    };
    let smaller = [0, 1, 2, number / 2, number.saturating_sub(1)];
    let smaller = smaller.iter().filter(|candidate| **candidate < number);
    smaller.map(|candidate| [candidate.to_string().as_bytes(), rest].concat()).collect()
}

#[cfg(test)]
mod tests {
    use super::cut;

    /// The text fails if it has the line `b` somewhere before a line whose number is 5 or more.
    fn fails(text: &[u8]) -> bool {
        let text = String::from_utf8_lossy(text);
        let mut behind = text.lines().skip_while(|line| *line != "b");
        behind.any(|line| line.parse::<u32>().map_or(false, |number| number >= 5))
    }

    #[test]
    fn cuts_to_what_matters() {
        let text: String =
            (0..200).map(|line| format!("{}\n", if line == 77 { "b".to_string() } else { line.to_string() })).collect();
        assert_eq!(cut(text.as_bytes(), fails), b"0\nb\n5\n");
    }

    #[test]
    fn keeps_what_can_not_be_cut() {
        assert_eq!(cut(b"b\n5\n", fails), b"b\n5\n");
        assert_eq!(cut(b"", |_| true), b"");
    }
}
