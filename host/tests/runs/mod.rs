//! Maps and logs written out by hand.

/// The array of runs, each first, last, number and pass, with zero bytes after it up to this length.
pub fn runs(length: usize, runs: &[(u64, u64, u32, u32)]) -> Vec<u8> {
    let mut bytes = (runs.len() as u32).to_be_bytes().to_vec();
    for (first, last, number, pass) in runs {
        bytes.extend(first.to_be_bytes());
        bytes.extend(last.to_be_bytes());
        bytes.extend(number.to_be_bytes());
        bytes.extend(pass.to_be_bytes());
    }
    bytes.resize(length, 0);
    bytes
}
