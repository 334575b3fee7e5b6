//! Buffers of a fixed length, as the entries are lent them.

/// A struct that is a buffer of so many bytes and nothing else.
macro_rules! buffer {
    ($(#[$doc:meta])* $name:ident, $bytes:expr) => {
        $(#[$doc])*
        #[derive(Clone, PartialEq, Eq)]
        #[repr(transparent)]
        pub struct $name([u8; $name::BYTES]);

        impl $name {
            /// Its length in bytes.
            pub const BYTES: usize = $bytes;

            /// All bytes zero, which is empty.
            pub const fn new() -> $name {
                $name([0; $name::BYTES])
            }

            /// The bytes where they stand, in a mapped file or in memory shared with others.
            pub fn over(bytes: &mut [u8; $name::BYTES]) -> &mut $name {
                // The struct is transparent: it is its bytes, and any bytes are one.
                unsafe { &mut *(bytes as *mut [u8; $name::BYTES]).cast() }
            }

            pub fn bytes(&self) -> &[u8; $name::BYTES] {
                &self.0
            }

            pub fn bytes_mut(&mut self) -> &mut [u8; $name::BYTES] {
                &mut self.0
            }
        }

        impl Default for $name {
            fn default() -> $name {
                $name::new()
            }
        }

        impl From<[u8; $name::BYTES]> for $name {
            fn from(bytes: [u8; $name::BYTES]) -> $name {
                $name(bytes)
            }
        }
    };
}

/// The unsigned integer at a place.
pub fn unsigned(bytes: &[u8], at: usize) -> u64 {
    let mut integer = [0; 4];
    integer.copy_from_slice(&bytes[at..at + 4]);
    u32::from_be_bytes(integer).into()
}

/// The unsigned hyper at a place.
pub fn hyper(bytes: &[u8], at: usize) -> u64 {
    let mut hyper = [0; 8];
    hyper.copy_from_slice(&bytes[at..at + 8]);
    u64::from_be_bytes(hyper)
}

/// The elements of the array at the start, each of so many bytes. Where the count is above what the
/// buffer holds, they are all that it holds.
pub fn array(bytes: &[u8], width: usize) -> std::slice::ChunksExact<'_, u8> {
    let (count, room) = (unsigned(bytes, 0), (bytes.len() - 4) / width);
    let elements = room.min(usize::try_from(count).unwrap_or(room));
    bytes[4..4 + width * elements].chunks_exact(width)
}
