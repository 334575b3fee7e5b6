//! The line program beside the model: what it writes for sessions of good and bad lines, however
//! its input comes, and how it ends.

mod messages;
mod pieces;
mod piped;

use gilboreth_host::model::line::line;
use gilboreth_host::model::serve::{serve, Message};
use gilboreth_host::model::table::Table;
use gilboreth_host::random::{for_seeds, Random};
use messages::message;
use pieces::written_in_pieces;
use piped::{finished, program, written};
use std::fs::{read, File};
use std::io::{Read, Write};
use std::process::Stdio;
use std::sync::mpsc::channel;
use std::thread;
use std::time::Duration;

fn file(path: &str) -> Vec<u8> {
    read(format!("{}/../{path}", env!("CARGO_MANIFEST_DIR"))).unwrap()
}

/// The output that was written by hand beside the program is the model's too.
#[test]
fn expected_by_hand() {
    let input = file("crates/lockline/stdin");
    let output = file("crates/lockline/stdout");
    assert!(line(&input) == output);
    assert!(written(&input) == output);
}

/// The example session is answered as README.md prints it.
#[test]
fn example() {
    let input = file("examples/session.csv");
    same(&input);
    let printed = String::from_utf8(line(&input)).unwrap().replace('\r', "");
    let readme = String::from_utf8(file("README.md")).unwrap();
    assert!(!printed.contains('?'));
    assert!(readme.contains(&format!("```\n{printed}```\n")));
}

#[test]
fn random_sessions() {
    for_seeds(0..240, |random| {
        let (lines, requests) = (random.below(400), random.pick(&[1, 2, 3, 10]));
        same(&session(random, lines, requests));
    });
}

#[test]
fn long_session() {
    for_seeds(1_000..1_001, |random| same(&session(random, 100_000, 2)));
}

/// A short session with each kind of break, a line of 129 bytes and a CR at its end.
fn short() -> Vec<u8> {
    let mut input = b"R,0,0,2,0,20\nR,1,0,2,10,30\r\nA,0,1\r\n\r\n\nF,0,1\r\r\nF,9,9,\n".to_vec();
    input.extend(format!("F,0,{}\r\nF,0,1\n\nF,1,2\r", "1".repeat(125)).bytes());
    input
}

/// Two reads, split at every place.
#[test]
fn every_split() {
    let input = short();
    let output = line(&input);
    for place in 0..=input.len() {
        let (before, after) = input.split_at(place);
        assert!(written_in_pieces(&[before, after]) == output, "split at {place}");
    }
}

/// A read for each byte, and reads of random sizes up to the program's own.
#[test]
fn many_pieces() {
    let input = short();
    assert!(written_in_pieces(&input.chunks(1).collect::<Vec<_>>()) == line(&input));
    for_seeds(2_000..2_020, |random| {
        let input = session(random, 200, 3);
        let mut rest = input.as_slice();
        let mut pieces = Vec::new();
        while !rest.is_empty() {
            let most = random.pick(&[3, 30, 300, 4_096]).min(rest.len() as u64);
            let (piece, after) = rest.split_at(1 + random.below(most) as usize);
            pieces.push(piece);
            rest = after;
        }
        assert!(written_in_pieces(&pieces) == line(&input));
    });
}

/// Each line is answered before the next one comes.
#[test]
fn answers_at_once() {
    let input = short();
    let mut child = program().stdin(Stdio::piped()).stdout(Stdio::piped()).spawn().unwrap();
    let mut stdin = child.stdin.take().unwrap();
    let mut stdout = child.stdout.take().unwrap();
    let (sender, receiver) = channel();
    let reader = thread::spawn(move || {
        let mut byte = [0];
        while stdout.read(&mut byte).unwrap() > 0 {
            sender.send(byte[0]).unwrap();
        }
    });
    let (mut sent, mut heard) = (0, Vec::new());
    for part in input.split_inclusive(|&byte| byte == b'\n') {
        stdin.write_all(part).unwrap();
        sent += part.len();
        if part.ends_with(b"\n") {
            let wanted = line(&input[..sent]);
            while heard.len() < wanted.len() {
                heard.push(receiver.recv_timeout(Duration::from_secs(60)).unwrap());
            }
            assert!(heard == wanted);
        }
    }
    drop(stdin);
    reader.join().unwrap();
    heard.extend(receiver);
    assert!(heard == line(&input));
    assert!(child.wait().unwrap().success());
}

/// A pipe that nobody reads, and a device that takes nothing, end the program without a word.
#[test]
fn nowhere_to_write() {
    let input = session(&mut Random::new(3_000), 20_000, 2);
    for out in [Stdio::piped(), Stdio::from(File::create("/dev/full").unwrap())] {
        let mut command = program();
        let command = command.stdin(Stdio::piped()).stdout(out).stderr(Stdio::piped());
        let mut child = command.spawn().unwrap();
        drop(child.stdout.take());
        // the program may be gone before it has all of its input
        let _ = child.stdin.take().unwrap().write_all(&input);
        let output = child.wait_with_output().unwrap();
        assert!(output.status.success());
        assert!(output.stderr.is_empty());
    }
}

/// An input that cannot be read is as an empty one.
#[test]
fn nothing_to_read() {
    let directory = File::open("/").unwrap();
    let child = program().stdin(directory).stdout(Stdio::piped()).spawn().unwrap();
    assert!(finished(child).is_empty());
}

fn same(input: &[u8]) {
    assert!(written(input) == line(input));
}

/// So many lines, good and bad, with either break; the last one may lack its break. So many messages
/// in ten are requests.
fn session(random: &mut Random, lines: u64, requests: u64) -> Vec<u8> {
    let mut table = Table::default();
    let mut input = Vec::new();
    for _ in 0..lines {
        let message =
            if random.once_in(10) { far(random) } else { message(&table, random, requests) };
        let mut text = text(message).into_bytes();
        if random.once_in(8) {
            damage(random, &mut text);
        } else {
            let _ = serve(&mut table, message);
        }
        input.extend(text);
        input.extend(random.pick(&["\n", "\r\n"]).bytes());
    }
    if random.once_in(2) {
        input.pop();
    }
    input
}

/// A message whose numbers lie at the ends of what the rules allow, and past them.
fn far(random: &mut Random) -> Message {
    let number = |random: &mut Random| {
        let ends = [0, 1, 4, 5, 15, 16, 63, 64, 1 << 32, i64::MAX as u64, 1 << 63, u64::MAX];
        random.pick(&ends)
    };
    let (client, handle) = (number(random), number(random));
    match random.below(6) {
        0 => Message::Acknowledge { client, handle },
        1 => Message::Downgrade { client, handle },
        2 => Message::Release { client, handle },
        _ => {
            let (stripe, mode) = (random.below(17), random.below(6));
            let (first, last) = (number(random), number(random));
            Message::Request { client: random.below(66), stripe, mode, first, last }
        }
    }
}

/// The message as a line, without its break.
fn text(message: Message) -> String {
    match message {
        Message::Request { client, stripe, mode, first, last } => {
            format!("R,{client},{stripe},{mode},{first},{last}")
        }
        Message::Acknowledge { client, handle } => format!("A,{client},{handle}"),
        Message::Downgrade { client, handle } => format!("D,{client},{handle}"),
        Message::Release { client, handle } => format!("F,{client},{handle}"),
    }
}

/// Makes most lines bad: a byte is put in, changed or taken out, or the line is empty or long.
fn damage(random: &mut Random, text: &mut Vec<u8>) {
    let place = random.below(text.len() as u64) as usize;
    let byte = random.pick(b",,0019RADFf?=GV +-.\"\r\n\0\xff");
    match random.below(8) {
        0 => text.clear(),
        1 => drop(text.remove(place)),
        2 => text[place] = byte,
        3 => text.push(byte),
        4 => text.resize(120 + random.below(20) as usize, byte),
        5 => text.resize(random.below(5_000) as usize, b'1'),
        _ => text.insert(place, byte),
    }
}
