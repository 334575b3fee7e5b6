//! The line program's reading of lines, good and bad: the model's, and the program's beside it.

mod pieces;
mod piped;

use gilboreth_host::model::line::line;
use pieces::written_in_pieces;
use piped::written;

/// What the model answers, and the program too, by one read for all or one for each byte.
fn answers(input: &[u8]) -> String {
    let output = line(input);
    assert!(written(input) == output);
    assert!(written_in_pieces(&input.chunks(1).collect::<Vec<_>>()) == output);
    String::from_utf8(output).unwrap()
}

/// A release on the empty table is refused with 9, and shows that the line was good.
const GOOD: &str = "=,9,0\r\n";
const BAD: &str = "?\r\n";

#[test]
fn breaks() {
    assert_eq!(answers(b""), "");
    assert_eq!(answers(b"F,0,1"), GOOD);
    assert_eq!(answers(b"F,0,1\n"), GOOD);
    assert_eq!(answers(b"F,0,1\r\n"), GOOD);
    assert_eq!(answers(b"F,0,1\r\nF,0,1\nF,0,1"), [GOOD; 3].concat());
}

#[test]
fn blank_lines() {
    assert_eq!(answers(b"\n"), BAD);
    assert_eq!(answers(b"\r\n"), BAD);
    assert_eq!(answers(b"\n\nF,0,1\n\r\n"), [BAD, BAD, GOOD, BAD].concat());
}

/// A CR is part of a break only before LF.
#[test]
fn stray_returns() {
    assert_eq!(answers(b"F,0,1\r"), BAD);
    assert_eq!(answers(b"\r"), BAD);
    assert_eq!(answers(b"F,0,1\r\r\n"), BAD);
    assert_eq!(answers(b"F,0\r,1\n"), BAD);
    assert_eq!(answers(b"F,0,1\rF,0,1\n"), BAD);
}

/// Wrong letters, fields too few, too many or empty, and numbers that aren't plain decimal.
#[test]
fn bad_lines() {
    let letters = "f,0,1|X,0,1|FF,0,1|,0,1|F;0;1|0,1|?|=,0,1| F,0,1|\"F\",0,1";
    let fields = "F|F,|F,0|F,0,|F,,1|F,0,1,|F,0,1,2|R,0,0,1,0|R,0,0,1,0,9,9|A,0,0,1,0,9";
    let numbers =
        "F,00,1|F,0,01|F,+0,1|F,-0,1|F,0,1.|F,0,1e1|F,0,0x1|F, 0,1|F,0,1 |F,0,\"1\"|F,0,é";
    for line in [letters, fields, numbers].iter().flat_map(|lines| lines.split('|')) {
        assert_eq!(answers(line.as_bytes()), BAD, "{line}");
    }
    assert_eq!(answers(b"F,0,\xFF"), BAD);
    assert_eq!(answers(b"F,0,\x001"), BAD);
}

/// The greatest number is 2^64 - 1: it is read, and then refused by its own rule.
#[test]
fn numbers() {
    assert_eq!(answers(b"F,0,0"), "=,9,0\r\n");
    assert_eq!(answers(b"F,0,18446744073709551615"), "=,9,0\r\n");
    assert_eq!(answers(b"F,18446744073709551615,0"), "=,3,0\r\n");
    assert_eq!(answers(b"F,0,18446744073709551616"), BAD);
    assert_eq!(answers(b"F,0,100000000000000000000"), BAD);
    assert_eq!(answers(b"F,0,99999999999999999999999999999999999999999"), BAD);
}

/// The longest good line has 106 bytes. Over 128 a line is bad, whatever it begins with,
/// and is answered once.
#[test]
fn long_lines() {
    let most = "18446744073709551615";
    let longest = format!("R,{most},{most},{most},{most},{most}");
    assert_eq!(longest.len(), 106);
    assert_eq!(answers(longest.as_bytes()), "=,3,0\r\n");
    for length in [128, 129, 130, 10_000] {
        let long = format!("F,0,1{}\r\nF,0,1\n", "1".repeat(length - 5));
        assert_eq!(answers(long.as_bytes()), [BAD, GOOD].concat());
        let blank = format!("{}\nF,0,1", " ".repeat(length));
        assert_eq!(answers(blank.as_bytes()), [BAD, GOOD].concat());
    }
}

/// A bad or refused line leaves the table as it is: the next request takes handle 2.
#[test]
fn bad_lines_change_nothing() {
    let input = b"R,0,0,1,0,9\nR,0,0,1,0,9,\nR,0,0,9,0,9\nR,1,0,1,3,4\r\n";
    let output = "=,0,1\r\n\
        G,1,0,0,1,1,0,0,9223372036854775807\r\n\
        ?\r\n\
        =,5,0\r\n\
        =,0,2\r\n\
        G,2,1,0,1,1,0,3,9223372036854775807\r\n";
    assert_eq!(answers(input), output);
}
