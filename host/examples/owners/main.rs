//! Prints docs/owners.svg: who owns which byte in the examples P8 and P9 of document 01.
//!
//! `tools/host run --release --example owners > docs/owners.svg` draws it anew.

mod picture;

fn main() {
    print!("{}", picture::draw());
}
