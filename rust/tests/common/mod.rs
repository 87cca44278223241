// What several tests use.
#![allow(dead_code)]
use std::io::Write;
use std::path::PathBuf;
use std::process::{Command, Stdio};

/// What is printed for a script that is played whole.
pub fn text_of(script: &str) -> String {
    let outcome = station::play(script.as_bytes());
    assert!(outcome.whole, "not played whole: {script}");
    String::from_utf8(outcome.text).unwrap()
}

/// What the program writes, what it says on standard error, and its status.
pub fn run_program(script: &[u8]) -> (Vec<u8>, String, Option<i32>) {
    let program = PathBuf::from(env!("CARGO_MANIFEST_DIR")).join("../crates/station/out/station");
    let mut child = Command::new(&program)
        .stdin(Stdio::piped())
        .stdout(Stdio::piped())
        .stderr(Stdio::piped())
        .spawn()
        .unwrap_or_else(|e| panic!("{}: {e}; `rt run` in crates/station builds it", program.display()));
    child.stdin.take().unwrap().write_all(script).unwrap();
    let done = child.wait_with_output().unwrap();
    (done.stdout, String::from_utf8_lossy(&done.stderr).into_owned(), done.status.code())
}

/// Numbers by chance: xorshift, from a seed that isn't 0.
pub struct Chance(pub u64);

impl Chance {
    pub fn next(&mut self) -> u64 {
        self.0 ^= self.0 << 13;
        self.0 ^= self.0 >> 7;
        self.0 ^= self.0 << 17;
        self.0
    }

    pub fn below(&mut self, n: u64) -> u64 {
        (self.next() >> 11) % n
    }

    pub fn pick<'a>(&mut self, all: &[&'a str]) -> &'a str {
        all[self.below(all.len() as u64) as usize]
    }
}

/// Whether a line is one of a script's: said once more, and otherwise than the proved parser says it.
pub fn is_line(line: &[u8]) -> bool {
    let Ok(text) = std::str::from_utf8(line) else { return false };
    let words: Vec<&str> = text.split(' ').collect();
    let n = |w: &str| small(w).is_some();
    match words[..] {
        ["key", x] => n(x),
        ["round", x] => n(x),
        ["on"] | ["new"] => true,
        ["fall", s, k, "after" | "before"] => {
            small(s).is_some_and(|s| s <= 2) && small(k).is_some_and(|k| k >= 1)
        }
        ["falls", s, r] => n(s) && n(r),
        [p, ref call @ ..] if small(p).is_some_and(|p| (1..=63).contains(&p)) => match *call {
            ["wait" | "take" | "leave" | "hear"] => true,
            ["spawn" | "exit" | "kill" | "close" | "remove" | "say", x] => n(x),
            ["open", x, "w" | "r"] => n(x),
            ["read", h, a] => n(h) && n(a),
            ["write", h, a, x] => n(h) && n(a) && n(x),
            _ => false,
        },
        _ => false,
    }
}

/// A number below 2^32, with no needless noughts in front.
pub fn small(word: &str) -> Option<u32> {
    let n: u32 = word.parse().ok()?;
    (n.to_string() == word).then_some(n)
}
