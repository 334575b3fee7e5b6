//! The calls by the library and by the model at once, which must agree on the answer and every byte.

use gilboreth_host::beside::Beside;
use gilboreth_host::calls::LIBRARY;
use gilboreth_host::model::locks::Answer;
use gilboreth_host::model::serve::Message;
use gilboreth_host::model::stripe::Piece;

pub fn serve(table: &mut [u8], events: &mut [u8], message: Message) -> Answer {
    Beside::new(LIBRARY).serve(table, events, message)
}

pub fn note(map: &mut [u8], log: &mut [u8], piece: Piece<u64>, image_length: u64) -> u64 {
    Beside::new(LIBRARY).note(map, log, piece, image_length)
}

pub fn write(map: &[u8], image: &mut [u8], piece: Piece<&[u8]>) -> u64 {
    Beside::new(LIBRARY).write(map, image, piece)
}

pub fn restart(map: &mut [u8], log: &[u8]) -> u64 {
    Beside::new(LIBRARY).restart(map, log)
}

pub fn compact(old_log: &[u8], new_log: &mut [u8]) -> u64 {
    Beside::new(LIBRARY).compact(old_log, new_log)
}
