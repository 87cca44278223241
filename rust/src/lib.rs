//! Scripts are played by the proved crate `play`.

/// What `play` hands back; the fields are those of its own struct, in that order.
#[repr(C)]
struct Played {
    printed: usize,
    line: u64,
    whole: bool,
}

extern "C" {
    // a slice is a pointer and then a length
    #[link_name = "play"]
    fn play_script(
        script: *const u8,
        script_len: usize,
        memory: *mut u64,
        memory_len: usize,
        out: *mut u8,
        out_len: usize,
    ) -> Played;
}

/// What was printed, the line that was reached, and whether all of the script was played and printed.
#[derive(Clone, Debug, PartialEq, Eq)]
pub struct Outcome {
    pub text: Vec<u8>,
    pub line: u64,
    pub whole: bool,
}

/// The words of memory and the bytes of text that the program `station` has.
pub const MEMORY: usize = 368_640;
pub const OUT: usize = 2_097_152;

/// Plays a script with as much room as the program `station` has.
pub fn play(script: &[u8]) -> Outcome {
    play_in(script, MEMORY, OUT)
}

/// Plays a script in so many words of memory, for a text of at most so many bytes.
pub fn play_in(script: &[u8], words: usize, bytes: usize) -> Outcome {
    let mut memory = vec![0u64; words];
    let mut text = vec![0u8; bytes];
    // Each pointer is that of a slice of the length beside it; no two of them overlap.
    let played = unsafe {
        play_script(
            script.as_ptr(),
            script.len(),
            memory.as_mut_ptr(),
            memory.len(),
            text.as_mut_ptr(),
            text.len(),
        )
    };
    text.truncate(played.printed);
    Outcome { text, line: played.line, whole: played.whole }
}
