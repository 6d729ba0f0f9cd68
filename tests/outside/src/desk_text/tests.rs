//! 01's ten rows as text, the bad forms of a line, the limits, and spelling against reading.

use super::*;

/// 01's ten rows: step line, step, answer, output line.
#[rustfmt::skip]
const ROWS: [(&str, FiveWords, FiveWords, &str); 10] = [
    ("o 0 1", [1, 0, 1, 0, 0], [0, 0, 0, 0, 0], "0 0 0 0 0"),
    ("w 0 7 50 1", [4, 0, 7, 50, 1], [0, 0, 0, 1, 50], "0 0 0 1 50"),
    ("r 0 7 2", [3, 0, 7, 2, 0], [6, 0, 0, 0, 0], "6 0 0 0 0"),
    ("x 0 1 9", [5, 0, 1, 9, 0], [0, 1, 0, 0, 1], "0 1 0 0 1"),
    ("r 0 7 2", [3, 0, 7, 2, 0], [0, 1, 0, 1, 50], "0 1 0 1 50"),
    ("w 0 7 60 2", [4, 0, 7, 60, 2], [0, 1, 1, 2, 60], "0 1 1 2 60"),
    ("w 0 7 70 1", [4, 0, 7, 70, 1], [0, 0, 0, 2, 70], "0 0 0 2 70"),
    ("r 0 7 1", [3, 0, 7, 1, 0], [6, 0, 0, 0, 0], "6 0 0 0 0"),
    ("x 1 0 9", [5, 1, 0, 9, 0], [0, 0, 1, 0, 1], "0 0 1 0 1"),
    ("r 0 7 3", [3, 0, 7, 3, 0], [0, 0, 1, 2, 60], "0 0 1 2 60"),
];

fn script(servers: u32, places: u32, slots: u32, steps: &[FiveWords]) -> Script {
    let steps = steps.to_vec();
    Script { servers, places, slots, steps }
}

fn refused(text: &[u8]) -> Vec<u8> {
    output(text, |_| panic!("a refused text has no steps to answer"))
}

/// Line 1, then that many good steps.
fn good_text(steps: usize) -> Vec<u8> {
    let mut text = b"2 4 1\n".to_vec();
    text.extend(b"c 0\n".repeat(steps));
    text
}

/// Good lines only, and exactly 16,384 bytes: 6 for line 1, 46 for each long step, 4 for each short one.
fn text_at_the_limit() -> Vec<u8> {
    let mut text = b"2 4 1\n".to_vec();
    text.extend(b"w 4294967295 4294967295 4294967295 4294967295\n".repeat(355));
    text.extend(b"c 0\n".repeat(12));
    text
}

#[test]
fn ten_rows() {
    let mut text = String::from("2 4 1\n");
    let mut printed = String::new();
    for (step_line, _, _, output_line) in ROWS {
        text.push_str(&format!("{}\n", step_line));
        printed.push_str(&format!("{}\n", output_line));
    }
    let steps: Vec<FiveWords> = ROWS.iter().map(|row| row.1).collect();
    let answers: Vec<FiveWords> = ROWS.iter().map(|row| row.2).collect();
    let expected = script(2, 4, 1, &steps);
    assert_eq!(read(text.as_bytes()), Reading::Script(expected.clone()));
    assert_eq!(spell(&expected), Some(text.clone().into_bytes()));
    assert_eq!(print_answers(&answers), printed.as_bytes());
    let whole = output(text.as_bytes(), |given| {
        assert_eq!(*given, expected);
        answers
    });
    assert_eq!(whole, printed.as_bytes());
}

#[test]
fn good_sizes() {
    for (line, expected) in [
        ("1 1 1\n", script(1, 1, 1, &[])),
        ("16 128 16\n", script(16, 128, 16, &[])),
        ("10 100 9\n", script(10, 100, 9, &[])),
    ] {
        assert_eq!(read(line.as_bytes()), Reading::Script(expected));
        assert_eq!(output(line.as_bytes(), |_| Vec::new()), b"");
    }
}

#[test]
fn bad_line_1() {
    #[rustfmt::skip]
    let lines: [&[u8]; 28] = [
        b"", b"\n", b"\n\n", b"2 4 1", b"2 4 1\r\n", b"0 4 1\n", b"17 4 1\n", b"2 0 1\n", b"2 129 1\n", b"2 1024 1\n",
        b"2 4 0\n", b"2 4 17\n", b"2 4\n", b"2 4 1 0\n", b" 2 4 1\n", b"2 4 1 \n", b"2  4 1\n", b"2\t4 1\n",
        b"02 4 1\n", b"+2 4 1\n", b"-2 4 1\n", b"2 4 4294967297\n", b"4294967298 4 1\n", b"2 4 x\n", b"2,4,1\n",
        b"o 0 1\n2 4 1\n", b"\xef\xbb\xbf2 4 1\n", b"2 4 1\0\n",
    ];
    for line in lines {
        assert_eq!(read(line), Reading::BadLine(1), "{:?}", line);
        assert_eq!(refused(line), b"bad line 1\n");
    }
}

#[test]
fn good_steps() {
    for (line, step) in [
        ("o 0 0\n", [1, 0, 0, 0, 0]),
        ("c 0\n", [2, 0, 0, 0, 0]),
        ("c 4294967295\n", [2, u32::MAX, 0, 0, 0]),
        ("r 1 2 3\n", [3, 1, 2, 3, 0]),
        ("w 1 2 3 4\n", [4, 1, 2, 3, 4]),
        ("x 1 2 3\n", [5, 1, 2, 3, 0]),
        ("o 16 99\n", [1, 16, 99, 0, 0]),
        ("w 100 256 4294967295 1000000000\n", [4, 100, 256, u32::MAX, 1_000_000_000]),
    ] {
        let text = format!("2 4 1\n{}", line);
        let expected = script(2, 4, 1, &[step]);
        assert_eq!(read(text.as_bytes()), Reading::Script(expected));
    }
}

#[test]
fn bad_steps() {
    #[rustfmt::skip]
    let lines: [&[u8]; 45] = [
        b"\n", b" \n", b"o\n", b"o \n", b"o 0\n", b"o 0 1 0\n", b"c\n", b"c \n", b"c 0 0\n", b"r 0 7\n",
        b"r 0 7 2 0\n", b"w 0 7 50\n", b"w 0 7 50 1 0\n", b"x 0 1\n", b"x 0 1 9 0\n", b"o  0 1\n", b"o 0  1\n",
        b" o 0 1\n", b"o 0 1 \n", b"o 00 1\n", b"o 0 01\n", b"o +0 1\n", b"o 0 -1\n", b"o 0 1\r\n", b"o\t0 1\n",
        b"o 0 1\t\n", b"O 0 1\n", b"q 0 1\n", b"1 0 1\n", b"oo 0 1\n", b"o0 1\n", b"0 1\n", b"c 4294967296\n",
        b"c 10000000000\n", b"c 18446744073709551616\n", b"c 0x1\n", b"c 1.0\n", b"c 1e1\n", b"c \xd9\xa1\n",
        b"c 0\xff\n", b"\xff 0\n", b"c 0\0\n", b"\0\n", b"c 0\x0b\n", b"c 0\r",
    ];
    for line in lines {
        let mut text = b"2 4 1\nc 0\n".to_vec();
        text.extend(line);
        assert_eq!(read(&text), Reading::BadLine(3), "{:?}", line);
        text.extend(b"q\n");
        assert_eq!(refused(&text), b"bad line 3\n", "{:?}", line);
    }
}

#[test]
fn the_last_line_needs_its_line_feed() {
    assert_eq!(read(b"2 4 1\nc 0\nc 0"), Reading::BadLine(3));
    assert_eq!(read(b"2 4 1\nc 0\n\n"), Reading::BadLine(3));
    assert_eq!(read(b"2 4 1\nc 0\n"), Reading::Script(script(2, 4, 1, &[[2, 0, 0, 0, 0]])));
}

#[test]
fn very_long_numbers_are_bad() {
    for digit in [b"0", b"9"] {
        let text = [b"2 4 1\nc ".to_vec(), digit.repeat(16_000), b"\n".to_vec()].concat();
        assert_eq!(read(&text), Reading::BadLine(2));
    }
}

#[test]
fn limit_of_bytes() {
    let text = text_at_the_limit();
    assert_eq!(text.len(), 16_384);
    assert!(matches!(read(&text), Reading::Script(script) if script.steps.len() == 367));
    let longer_number = [&text[..text.len() - 2], b"10\n"].concat();
    assert_eq!(longer_number.len(), 16_385);
    let without_line_feed = [&text[..], b"c"].concat();
    for too_long in [longer_number, without_line_feed, vec![b'q'; 16_385], vec![b'\n'; 100_000]] {
        assert_eq!(refused(&too_long), b"too long\n");
    }
    assert_eq!(refused(&[b'q'; 16_384]), b"bad line 1\n");
    assert_eq!(refused(&[b'\n'; 16_384]), b"bad line 1\n");
    let bad_last = [&text[..text.len() - 1], b" "].concat();
    assert_eq!(refused(&bad_last), b"bad line 368\n");
}

#[test]
fn limit_of_steps() {
    assert!(matches!(read(&good_text(512)), Reading::Script(script) if script.steps.len() == 512));
    assert_eq!(refused(&good_text(513)), b"too long\n");
    let endings: [&[u8]; 5] = [b"q\n", b"\n", b"q", b"c 0", b"c 0\nq\n"];
    for ending in endings {
        let bad_line_514 = [&good_text(512), ending].concat();
        assert_eq!(refused(&bad_line_514), b"too long\n");
    }
    let endings: [&[u8]; 6] = [b"q\n", b"\n", b"q", b"c 0", b"q\nc 0\n", b"q\nq\n"];
    for ending in endings {
        let bad_line_513 = [&good_text(511), ending].concat();
        assert_eq!(refused(&bad_line_513), b"bad line 513\n");
    }
    let bad_line_2 = [b"2 4 1\nq\n".to_vec(), b"c 0\n".repeat(600)].concat();
    assert_eq!(refused(&bad_line_2), b"bad line 2\n");
}

#[test]
fn spelled_then_read_is_the_script() {
    let words = [0, 1, 9, 10, 255, 1_000_000_000, u32::MAX];
    for first in words {
        for second in words {
            let steps = [
                [1, first, second, 0, 0],
                [2, first, 0, 0, 0],
                [3, first, second, first, 0],
                [4, second, first, second, first],
                [5, second, first, first, 0],
            ];
            let expected = script(16, 128, 16, &steps);
            let text = spell(&expected).unwrap_or_default();
            assert_eq!(read(&text), Reading::Script(expected));
        }
    }
}

/// A script has one text only, so a text with one byte changed is refused or spelled as it stands.
#[test]
fn read_then_spelled_is_the_text() {
    let good = b"2 14 1\no 0 1\nw 0 70 50 1\nx 0 1 90\nr 0 7 2\nc 0\n";
    for place in 0..good.len() {
        for byte in 0..=255 {
            let mut text = good.to_vec();
            text[place] = byte;
            match read(&text) {
                Reading::Script(script) => assert_eq!(spell(&script), Some(text)),
                reading => assert!(matches!(reading, Reading::BadLine(1..=7)), "{:?}", text),
            }
        }
    }
}

#[test]
fn steps_that_are_no_line() {
    let steps = [
        [0, 0, 0, 0, 0],
        [6, 0, 0, 0, 0],
        [u32::MAX, 0, 0, 0, 0],
        [1, 0, 1, 1, 0],
        [1, 0, 1, 0, 1],
        [2, 0, 1, 0, 0],
        [2, 0, 0, 0, 1],
        [3, 0, 7, 2, 1],
        [5, 0, 1, 9, 1],
    ];
    for step in steps {
        assert_eq!(spell(&script(2, 4, 1, &[[2, 0, 0, 0, 0], step])), None);
    }
}

#[test]
fn printed_answers() {
    assert_eq!(print_answers(&[]), b"");
    assert_eq!(print_answers(&[[8, 10, 0, u32::MAX, 7]]), b"8 10 0 4294967295 7\n");
}
