//! XDR, RFC 4506: unsigned integers of 4 bytes, unsigned hypers of 8, and variable arrays.

/// The unsigned integer at an offset.
pub fn unsigned(bytes: &[u8], at: usize) -> u64 {
    big_endian(&bytes[at..at + 4])
}

/// The unsigned hyper at an offset.
pub fn hyper(bytes: &[u8], at: usize) -> u64 {
    big_endian(&bytes[at..at + 8])
}

fn big_endian(bytes: &[u8]) -> u64 {
    bytes.iter().fold(0, |value, &byte| value << 8 | u64::from(byte))
}

/// Puts an unsigned integer at an offset; a greater value is the caller's error.
pub fn put_unsigned(bytes: &mut [u8], at: usize, value: u64) {
    let value = u32::try_from(value).expect("an unsigned integer has 4 bytes");
    bytes[at..at + 4].copy_from_slice(&value.to_be_bytes());
}

/// Puts an unsigned hyper at an offset.
pub fn put_hyper(bytes: &mut [u8], at: usize, value: u64) {
    bytes[at..at + 8].copy_from_slice(&value.to_be_bytes());
}

/// The elements of the array at the start, and the bytes after it.
/// There is none if the count is above `most` or an element is none.
pub fn array<T>(
    bytes: &[u8],
    width: usize,
    most: usize,
    element: impl Fn(&[u8]) -> Option<T>,
) -> Option<(Vec<T>, &[u8])> {
    let count = unsigned(bytes, 0);
    if count > most as u64 {
        return None;
    }
    let (elements, after) = bytes[4..].split_at(count as usize * width);
    let elements = elements.chunks_exact(width).map(element).collect::<Option<_>>()?;
    Some((elements, after))
}

/// Puts an array at the start and leaves the bytes after it alone.
pub fn put_array<T>(bytes: &mut [u8], width: usize, elements: &[T], put: impl Fn(&mut [u8], &T)) {
    put_unsigned(bytes, 0, elements.len() as u64);
    for (at, element) in elements.iter().enumerate() {
        put(&mut bytes[4 + width * at..][..width], element);
    }
}

/// Whether these bytes are zero bytes.
pub fn zero(bytes: &[u8]) -> bool {
    bytes.iter().fold(0, |all, byte| all | byte) == 0
}
