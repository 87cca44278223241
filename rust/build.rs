// Builds with `rt` and links the proved crate `play`, as a static library; and builds the program `station`, which tests run.
use std::fs;
use std::path::{Path, PathBuf};
use std::process::{Command, Stdio};
use std::time::SystemTime;

const CRATES: [&str; 6] = ["heal", "script", "memory", "play", "play_c", "station"];
const PARTS: [&str; 3] = ["src", "specs", "proofs"];

fn main() {
    let here = PathBuf::from(std::env::var("CARGO_MANIFEST_DIR").unwrap());
    let root = here.parent().unwrap();
    let crates = root.join("crates");
    let archive = crates.join("play_c/out/libplay_c.a");
    let program = crates.join("station/out/station");
    let newest = newest_source(root);
    if changed(&archive) < newest {
        say(&crates.join("play_c"), &["lib"]);
    }
    // `rt` builds a program where it runs it: here on an empty script
    if changed(&program) < newest {
        say(&crates.join("station"), &["run"]);
    }
    // C callers know the library by this name
    let library = root.join("target/staticlib/libplay.a");
    fs::create_dir_all(library.parent().unwrap()).expect("a folder for the library");
    fs::copy(&archive, &library).expect("`rt lib` makes the library");
    println!("cargo:rerun-if-changed=build.rs");
    println!("cargo:rerun-if-changed={}", root.join("crates.txt").display());
    for part in parts(root) {
        println!("cargo:rerun-if-changed={}", part.display());
    }
    println!("cargo:rerun-if-changed={}", archive.display());
    println!("cargo:rerun-if-changed={}", program.display());
    println!("cargo:rustc-link-search=native={}", library.parent().unwrap().display());
    println!("cargo:rustc-link-lib=static=play");
}

fn say(folder: &Path, words: &[&str]) {
    let done = Command::new("rt").args(words).current_dir(folder).stdin(Stdio::null()).output().expect("`rt` runs");
    let text = String::from_utf8_lossy(&done.stdout);
    let more = String::from_utf8_lossy(&done.stderr);
    assert!(done.status.success(), "rt {} failed in {}:\n{text}{more}", words.join(" "), folder.display());
}

// The folders that are read of each crate; what `rt` makes lies beside them.
fn parts(root: &Path) -> Vec<PathBuf> {
    let of = |name: &&str| PARTS.map(|part| root.join("crates").join(name).join(part));
    CRATES.iter().flat_map(of).filter(|part| part.is_dir()).collect()
}

// When a file was last changed; the oldest time of all if it isn't there.
fn changed(path: &Path) -> SystemTime {
    fs::metadata(path).and_then(|m| m.modified()).unwrap_or(SystemTime::UNIX_EPOCH)
}

fn newest_source(root: &Path) -> SystemTime {
    let mut newest = changed(&root.join("crates.txt"));
    for part in parts(root) {
        newest = newest.max(newest_in(&part));
    }
    newest
}

fn newest_in(dir: &Path) -> SystemTime {
    let mut newest = changed(dir);
    for entry in fs::read_dir(dir).expect("a crate's folder").flatten() {
        let path = entry.path();
        newest = newest.max(if path.is_dir() { newest_in(&path) } else { changed(&path) });
    }
    newest
}
