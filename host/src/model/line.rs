//! The line program: from the bytes of standard input to those of standard output.

use super::serve::{serve, Event, Kind, Message};
use super::table::Table;

/// Serves every line on one table that starts empty.
pub fn line(input: &[u8]) -> Vec<u8> {
    let mut table = Table::default();
    lines(input).flat_map(|line| answer(&mut table, line).into_bytes()).collect()
}

/// The lines without their breaks; the last one may lack its break.
/// A CR belongs to a break only before LF. Elsewhere, also as the input's last byte,
/// it is a byte of its line and makes that line a bad one.
fn lines(input: &[u8]) -> impl Iterator<Item = &[u8]> {
    input.split_inclusive(|&byte| byte == b'\n').map(|line| {
        let body = line.strip_suffix(b"\r\n");
        body.or_else(|| line.strip_suffix(b"\n")).unwrap_or(line)
    })
}

/// The answer to one line, as lines.
fn answer(table: &mut Table, line: &[u8]) -> String {
    match message(line).map(|message| serve(table, message)) {
        None => "?\r\n".to_string(),
        Some(Err(refusal)) => format!("=,{refusal},0\r\n"),
        Some(Ok(accepted)) => {
            let events: String = accepted.events.iter().map(event_line).collect();
            format!("=,0,{}\r\n{events}", accepted.handle)
        }
    }
}

fn event_line(event: &Event) -> String {
    let letter = match event.kind {
        Kind::Grant => 'G',
        Kind::Revocation => 'V',
    };
    let r = &event.record;
    format!(
        "{letter},{},{},{},{},{},{},{},{}\r\n",
        r.handle, r.client, r.stripe, r.mode as u64, r.state as u64, r.number, r.first, r.last
    )
}

/// The message of a line, or none if the line is bad.
/// A line over 128 bytes needs no rule of its own: the longest good one has 106,
/// its letter and five commas with 20 digits each.
fn message(line: &[u8]) -> Option<Message> {
    let (letter, fields) = std::str::from_utf8(line).ok()?.split_once(',')?;
    let numbers = fields.split(',').map(number).collect::<Option<Vec<u64>>>()?;
    match (letter, numbers.as_slice()) {
        ("R", &[client, stripe, mode, first, last]) => {
            Some(Message::Request { client, stripe, mode, first, last })
        }
        ("A", &[client, handle]) => Some(Message::Acknowledge { client, handle }),
        ("D", &[client, handle]) => Some(Message::Downgrade { client, handle }),
        ("F", &[client, handle]) => Some(Message::Release { client, handle }),
        _ => None,
    }
}

/// A decimal number with no leading zeros except 0 itself, at most 2^64 - 1.
fn number(field: &str) -> Option<u64> {
    let digits = field.bytes().all(|byte| byte.is_ascii_digit());
    let leading_zero = field.len() > 1 && field.starts_with('0');
    if digits && !leading_zero {
        field.parse().ok()
    } else {
        None
    }
}
