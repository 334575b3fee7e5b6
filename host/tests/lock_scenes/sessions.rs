//! Sessions with few stripes and crowded ranges.

use crate::messages::message;
use gilboreth_host::beside::Beside;
use gilboreth_host::model::locks::{decode, encode, EVENTS_BYTES};
use gilboreth_host::model::serve::Message;
use gilboreth_host::model::table::Table;
use gilboreth_host::model::{EOF, HIGHEST};
use gilboreth_host::random::{for_seeds, Random};
use std::ops::Range;

/// Sessions of 320 messages, so many requests in ten. Most start on the empty table; on some the
/// handles, and with them the numbers of stripe 0, soon reach their highest.
pub fn play(beside: &mut Beside, seeds: Range<u64>, requests: u64) {
    for_seeds(seeds, |random| {
        let mut table = Table { issued: random.pick(&[0, 0, 0, HIGHEST - 90]), ..Table::default() };
        table.numbers[0] = table.issued;
        let mut bytes = encode(&table);
        let mut events = vec![0xEE; EVENTS_BYTES + 50];
        for _ in 0..320 {
            let mut message = message(&table, random, requests);
            if random.once_in(20) {
                message = astray(random, message);
            }
            let room = if random.once_in(40) { EVENTS_BYTES - 1 } else { EVENTS_BYTES };
            let room = room + random.pick(&[0, 0, 0, 50]);
            if random.once_in(40) {
                let mut damaged = bytes.clone();
                damaged[random.below(400) as usize] ^= 1 << random.below(8);
                beside.serve(&mut damaged, &mut events[..room], message);
            }
            if beside.serve(&mut bytes, &mut events[..room], message).refusal == 0 {
                table = decode(&bytes).unwrap();
            }
        }
    });
}

/// The message with one of its numbers at a limit, past it, or far off.
fn astray(random: &mut Random, message: Message) -> Message {
    let odd = random.pick(&[0, 5, 15, 16, 63, 64, HIGHEST, HIGHEST + 2, EOF, EOF + 1, u64::MAX]);
    let mut message = message;
    let field = match &mut message {
        Message::Request { client, stripe, mode, first, last } => match random.below(5) {
            0 => client,
            1 => stripe,
            2 => mode,
            3 => first,
            _ => last,
        },
        Message::Acknowledge { client, handle }
        | Message::Downgrade { client, handle }
        | Message::Release { client, handle } => match random.below(2) {
            0 => client,
            _ => handle,
        },
    };
    *field = odd;
    message
}
