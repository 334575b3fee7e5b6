//! The picture in docs/ is what the library says.

#[path = "../examples/owners/picture.rs"]
mod picture;

#[test]
fn owners() {
    let kept = include_str!("../../docs/owners.svg");
    assert!(
        picture::draw() == kept,
        "docs/owners.svg is another picture; `tools/host run --release --example owners > docs/owners.svg` draws it"
    );
}
