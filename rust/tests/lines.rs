// What single lines do.
mod common;
use common::{run_program, text_of};
use station::{play, play_in};

#[test]
fn what_is_not_built_is_refused() {
    for call in ["spawn 3", "exit 0", "wait", "kill 2"] {
        assert_eq!(text_of(&format!("1 {call}\non\n")), "1 no 14\n", "{call}");
    }
}

#[test]
fn rows_of_files_and_desk() {
    let rows = [
        ("open 3 w", "handle 0"), ("open 3 r", "no 8"), ("write 0 0 0", "done"), ("write 0 1 7", "done"), ("write 0 3 9", "no 5"),
        ("read 0 1", "word 7"), ("read 0 2", "no 5"), ("close 0", "done"), ("close 0", "no 4"), ("open 64 w", "no 1"), ("open 4 r", "no 2"),
        ("open 3 r", "handle 0"), ("write 0 0 1", "no 6"), ("open 3 r", "handle 1"), ("remove 3", "no 8"), ("leave", "no 9"), ("say 5", "no 9"), ("take", "done"),
    ];
    for falls in ["", "falls 3 5\n", "falls 4 3\n"] {
        let script: String = rows.iter().map(|(call, _)| format!("1 {call}\non\n")).collect();
        let wanted: String = rows.iter().map(|(_, told)| format!("1 {told}\n")).collect();
        assert_eq!(text_of(&format!("{falls}{script}")), wanted, "{falls}");
    }
}

// The desk's server falls over each thing that it asks while it shows a word, before and after: there's one word, and it's told.
#[test]
fn a_word_is_shown_once() {
    for nth in 1..=60 {
        for side in ["before", "after"] {
            let script = format!("1 take\non\nfall 2 {nth} {side}\n1 say 5\non\n");
            assert_eq!(text_of(&script), "1 done\nscreen 0 5\n1 done\n", "{script}");
        }
    }
}

#[test]
fn told_in_the_first_round() {
    for (before, call, told) in [("", "open 3 w", "handle 0"), ("", "take", "done"), ("1 take\non\nkey 65\n", "hear", "word 65"), ("", "wait", "no 14")] {
        let printed = text_of(&format!("{before}1 {call}\nround 1\n"));
        assert!(printed.ends_with(&format!("1 {told}\n")), "{call}: {printed}");
    }
}

// A hear that waits doesn't keep the files' server from its work, and gets the key that comes.
#[test]
fn a_hear_waits_for_a_key() {
    assert_eq!(text_of("1 take\non\n1 hear\non\n1 wait\nkey 65\non\n"), "1 done\n1 busy\n1 word 65\n");
}

#[test]
fn all_is_printed_in_order() {
    let script = "1 say 5\n1 say 6\non\nwhat\n2 wait\n1 wait\non\n";
    assert_eq!(text_of(script), "1 busy\n1 no 9\nline 4?\n2 gone\n1 no 14\n");
}

#[test]
fn who_waits_is_busy_until_it_is_told() {
    assert_eq!(text_of("1 wait\n1 wait\n1 hear\n"), "1 busy\n1 busy\n");
    assert_eq!(text_of("1 wait\nround 0\n1 wait\n"), "1 busy\n");
    assert_eq!(text_of("1 wait\nround 1\n1 wait\n"), "1 no 14\n");
}

#[test]
fn who_does_not_run_is_gone() {
    assert_eq!(text_of("2 wait\n63 say 1\n"), "2 gone\n63 gone\n");
}

#[test]
fn lines_that_are_none_are_numbered() {
    let script = "\n1\n0 wait\n64 wait\n1 spawn 4294967296\n1 spawn 03\n1  wait\n1 wait \nfall 3 1 after\nfall 0 0 before\nkey\non on\n\u{e9}";
    let wanted: String = (1..=13).map(|n| format!("line {n}?\n")).collect();
    assert_eq!(text_of(script), wanted);
}

#[test]
fn lines_are_numbered_through_all_sections() {
    assert_eq!(text_of("new\nx\nnew\nnew\nx"), "line 2?\nline 5?\n");
    assert_eq!(play(b"new\nx\nnew\nnew\nx").line, 5);
}

#[test]
fn a_section_begins_anew() {
    // who waited waits no more
    assert_eq!(text_of("1 wait\nnew\n1 wait\non\n"), "1 no 14\n");
    // planned falls are forgotten: by these nothing would ever be told
    assert_eq!(text_of("falls 1 1\nnew\n1 wait\nround 1\n"), "1 no 14\n");
}

#[test]
fn nothing_is_played_of_nothing() {
    let outcome = play(b"");
    assert_eq!((outcome.text.len(), outcome.line, outcome.whole), (0, 0, true));
}

#[test]
fn falls_delay_what_is_told() {
    // server 0 falls over the first thing that it asks, so it's told in the second round
    let script = |rounds: u32| format!("fall 0 1 before\n1 wait\nround {rounds}\n1 wait\n");
    assert_eq!(text_of(&script(1)), "1 busy\n");
    assert_eq!(text_of(&script(2)), "1 no 14\n");
    // after it was told it's told no second time
    for nth in 1..=4 {
        for side in ["before", "after"] {
            assert_eq!(text_of(&format!("fall 0 {nth} {side}\n1 wait\non\n")), "1 no 14\n");
        }
    }
}

#[test]
fn who_always_falls_never_settles() {
    assert_eq!(text_of("falls 1 1\non\n"), "on gave up\n");
}

#[test]
fn too_little_memory_plays_nothing() {
    let outcome = play_in(b"x\n", 73_728 + 8 * 8_192 - 1, 100);
    assert_eq!((outcome.text.len(), outcome.whole), (0, false));
    assert!(play_in(b"x\n", 73_728 + 8 * 8_192, 100).whole);
    assert!(!play_in(b"x\n", 0, 100).whole);
}

#[test]
fn what_has_no_room_is_left_out_by_whole_lines() {
    let script = b"x\nx\nx\n";
    for bytes in 0..40 {
        let outcome = play_in(script, station::MEMORY, bytes);
        let lines = bytes.min(24) / 8;
        assert_eq!(outcome.text, b"line 1?\nline 2?\nline 3?\n"[..8 * lines].to_vec());
        assert_eq!(outcome.whole, lines == 3);
    }
}

#[test]
fn events_have_room_up_to_a_bound() {
    let outcome = play("x\n".repeat(32_768).as_bytes());
    assert!(outcome.whole);
    let script = "x\n".repeat(32_769);
    let outcome = play(script.as_bytes());
    assert_eq!((outcome.line, outcome.whole), (32_769, false));
    assert!(outcome.text.ends_with(b"line 32768?\n"));
    let (text, said, status) = run_program(script.as_bytes());
    assert_eq!(text, outcome.text);
    assert_eq!(status, Some(1));
    assert!(said.starts_with("station: line 32769: there's no room"), "{said}");
}

#[test]
fn a_script_has_a_longest_length() {
    let (text, said, status) = run_program(&vec![b'x'; 1_048_576]);
    assert_eq!((text, said.as_str(), status), (b"line 1?\n".to_vec(), "", Some(0)));
    let (text, said, status) = run_program(&vec![b'x'; 1_048_577]);
    assert_eq!((text.len(), status), (0, Some(1)));
    assert_eq!(said, "station: the script is longer than 1 MiB\n");
}
