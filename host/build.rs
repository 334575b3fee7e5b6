//! Links the proved library, the archive that `tools/archive` builds.
//! `GIL_ARCHIVE_DIR` names another directory that holds one.
//!
//! The sentences of the refusals stand once, in include/gilboreth.h: the library has them from there.

use std::path::{Path, PathBuf};

fn main() {
    sentences(Path::new("../include/gilboreth.h"));
    link();
}

/// Writes the sentences of `gil_refusal_text`, in the order of their numbers, as a list for Rust.
fn sentences(header: &Path) {
    println!("cargo:rerun-if-changed={}", header.display());
    let header = std::fs::read_to_string(header).expect("the header is beside the host");
    let number = |name: &str| {
        let define = header.lines().find_map(|line| line.strip_prefix(&format!("#define {name} ")));
        let value = define.and_then(|rest| rest.split_whitespace().next()).expect(name);
        value.parse::<usize>().expect(name)
    };
    let (_, body) = header.split_once("gil_refusal_text(uint64_t refusal)").expect("the sentences");
    let (body, _) = body.split_once("default:").expect("the sentences");
    let mut sentences: Vec<(usize, String)> = Vec::new();
    for case in body.split("case ").skip(1) {
        let (name, returned) = case.split_once(':').expect("a case");
        // what stands between quotes, of one or more lines, is one sentence
        let sentence: String = returned.split('"').skip(1).step_by(2).collect();
        sentences.push((number(name), sentence));
    }
    sentences.sort();
    assert!(sentences.iter().map(|(number, _)| *number).eq(0..sentences.len()));
    let list: Vec<String> = sentences.into_iter().map(|(_, sentence)| sentence).collect();
    let out = PathBuf::from(std::env::var_os("OUT_DIR").expect("cargo names it"));
    std::fs::write(out.join("sentences.rs"), format!("&{list:?}")).expect("the list is written");
}

fn link() {
    let place = std::env::var_os("GIL_ARCHIVE_DIR");
    let directory = place.map_or(PathBuf::from("../target/staticlib"), PathBuf::from);
    let archive = directory.join("libgilboreth.a");
    println!("cargo:rerun-if-env-changed=GIL_ARCHIVE_DIR");
    println!("cargo:rerun-if-changed={}", archive.display());
    match archive.canonicalize() {
        Ok(archive) => {
            println!("cargo:rustc-link-search=native={}", archive.parent().unwrap().display());
            println!("cargo:rustc-link-lib=static=gilboreth");
        }
        Err(_) => {
            let archive = archive.display();
            eprintln!(
                "There is no {archive}: run `make test` (or `tools/archive`) \
                at the top of the repository, which builds it."
            );
            std::process::exit(1);
        }
    }
}
