//! The entries of the proved library on slices and numbers, as include/gilboreth.h has them.
//!
//! They are safe to call. C is asked for buffers that don't overlap, and for no null pointer but at
//! length 0. A slice is never null, and where two slices of one call overlap both are only read.
//!
//! ```
//! use gilboreth_host::entries::{compact, note, request, request_list, Answer, Item};
//!
//! let (mut table, mut events) = ([0; 11_336], [0; 11_268]);
//! let answer = request(&mut table, &mut events, 0, 0, 2, 0, 20);
//! assert_eq!(answer, Answer { refusal: 0, handle: 1, events: 1 });
//!
//! // Client 1 asks for two places of stripe 1 and for one of stripe 16, which there isn't.
//! let ask = |stripe, first, last| Item { client: 1, stripe, mode: 2, first, last, ..Item::default() };
//! let mut items = [ask(1, 0, 9), ask(16, 10, 19), ask(1, 20, 29)];
//! let answer = request_list(&mut table, &mut [0; 22_532], &mut items);
//! assert_eq!(answer, Answer { refusal: 0, handle: 0, events: 2 });
//! assert_eq!(items.map(|item| (item.refusal, item.handle)), [(0, 2), (4, 0), (0, 3)]);
//!
//! // A piece of 4 bytes from byte 4 on, with number 1 and pass 1, of an image of 10 bytes.
//! let (mut map, mut log) = ([0; 24_580], [0; 49_156]);
//! assert_eq!(note(&mut map, &mut log, 4, 4, 1, 1, 10), 0);
//! assert_eq!(note(&mut map, &mut log, 4, 0, 1, 1, 10), 14);
//! assert_eq!(note(&mut map, &mut log, 4, 4, 1, 0, 10), 15);
//! assert_eq!(note(&mut map, &mut log[1..], 4, 4, 1, 1, 10), 13);
//! assert_eq!(compact(&log, &mut [0; 49_155]), 13);
//! ```

/// A message's answer as C returns it, by value. A refused one has handle 0 and event count 0.
#[repr(C)]
#[derive(Clone, Copy, Debug, PartialEq, Eq)]
pub struct Answer {
    pub refusal: u64,
    pub handle: u64,
    pub events: u64,
}

/// An item of a list as C has it: what is asked, and then the answer that the list stores in it.
#[repr(C)]
#[derive(Clone, Copy, Debug, Default, PartialEq, Eq)]
pub struct Item {
    pub client: u64,
    pub stripe: u64,
    pub mode: u64,
    pub first: u64,
    pub last: u64,
    pub refusal: u64,
    pub handle: u64,
    pub events: u64,
}

/// An entry that returns an answer. The library that is compiled for Arm takes the answer's address
/// before the rest, which on x86-64 is how a structure is returned.
macro_rules! answering {
    ($entry:ident($($word:ident: $type:ty),+)) => {
        #[cfg(not(target_arch = "aarch64"))]
        extern "C" {
            fn $entry($($word: $type),+) -> Answer;
        }
        #[cfg(target_arch = "aarch64")]
        unsafe fn $entry($($word: $type),+) -> Answer {
            extern "C" {
                fn $entry(answer: *mut Answer, $($word: $type),+);
            }
            let mut answer = Answer { refusal: 0, handle: 0, events: 0 };
            $entry(&mut answer, $($word),+);
            answer
        }
    };
}

/// A message's entry: the table, the event buffer, and its numbers.
macro_rules! message {
    ($(#[$doc:meta])* $name:ident is $entry:ident($($number:ident),+)) => {
        answering! {
            $entry(
                table: *mut u8,
                table_len: usize,
                events: *mut u8,
                events_len: usize,
                $($number: u64),+
            )
        }

        $(#[$doc])*
        pub fn $name(table: &mut [u8], events: &mut [u8], $($number: u64),+) -> Answer {
            let (t, e) = (table.as_mut_ptr(), events.as_mut_ptr());
            unsafe { $entry(t, table.len(), e, events.len(), $($number),+) }
        }
    };
}

message! {
    /// Refused with 1 to 8.
    request is gil_request(client, stripe, mode, first, last)
}
message! {
    /// Refused with 1, 2, 3, 9, 10, 11.
    acknowledge is gil_acknowledge(client, handle)
}
message! {
    /// Refused with 1, 2, 3, 9, 10, 11.
    downgrade is gil_downgrade(client, handle)
}
message! {
    /// Refused with 1, 2, 3, 9, 10.
    release is gil_release(client, handle)
}

answering! {
    gil_request_list(
        table: *mut u8,
        table_len: usize,
        events: *mut u8,
        events_len: usize,
        items: *mut Item,
        count: usize
    )
}

/// Refused with 1 (under 22,532 bytes), 2, 19. Each item's answer, which may be 3 to 8, is stored in
/// the item.
pub fn request_list(table: &mut [u8], events: &mut [u8], items: &mut [Item]) -> Answer {
    let (t, e, i) = (table.as_mut_ptr(), events.as_mut_ptr(), items.as_mut_ptr());
    unsafe { gil_request_list(t, table.len(), e, events.len(), i, items.len()) }
}

extern "C" {
    fn gil_note(
        map: *mut u8,
        map_len: usize,
        log: *mut u8,
        log_len: usize,
        first: u64,
        length: u64,
        number: u64,
        pass: u64,
        image_length: u64,
    ) -> u64;
    fn gil_write(
        map: *const u8,
        map_len: usize,
        image: *mut u8,
        image_len: usize,
        first: u64,
        piece: *const u8,
        piece_len: usize,
        number: u64,
        pass: u64,
    ) -> u64;
    fn gil_restart(map: *mut u8, map_len: usize, log: *const u8, log_len: usize) -> u64;
    fn gil_compact(old_log: *const u8, old_len: usize, new_log: *mut u8, new_len: usize) -> u64;
}

/// Refused with 12 to 17.
pub fn note(
    map: &mut [u8],
    log: &mut [u8],
    first: u64,
    length: u64,
    number: u64,
    pass: u64,
    image_length: u64,
) -> u64 {
    let (m, l) = (map.as_mut_ptr(), log.as_mut_ptr());
    unsafe { gil_note(m, map.len(), l, log.len(), first, length, number, pass, image_length) }
}

/// Refused with 12, 14, 15, 18.
pub fn write(
    map: &[u8],
    image: &mut [u8],
    first: u64,
    piece: &[u8],
    number: u64,
    pass: u64,
) -> u64 {
    let (m, i, p) = (map.as_ptr(), image.as_mut_ptr(), piece.as_ptr());
    unsafe { gil_write(m, map.len(), i, image.len(), first, p, piece.len(), number, pass) }
}

/// Refused with 12 (length only), 13, 16.
pub fn restart(map: &mut [u8], log: &[u8]) -> u64 {
    unsafe { gil_restart(map.as_mut_ptr(), map.len(), log.as_ptr(), log.len()) }
}

/// Refused with 13 (either length, or an unsound old log), 16.
pub fn compact(old_log: &[u8], new_log: &mut [u8]) -> u64 {
    unsafe { gil_compact(old_log.as_ptr(), old_log.len(), new_log.as_mut_ptr(), new_log.len()) }
}
