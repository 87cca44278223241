// Scripts that are damaged: they never crash, just the lines that are none are called so, and the program does the same.
mod common;
use common::{is_line, run_program, small, Chance};

const LINES: [&str; 30] = [
    "1 spawn 3", "1 exit 0", "1 wait", "1 kill 2", "1 open 3 w", "1 open 3 r", "1 close 0", "1 read 0 1",
    "1 write 0 1 7", "1 remove 3", "1 take", "1 leave", "1 say 5", "1 hear", "2 wait", "63 say 1", "key 65", "round 5",
    "round 1", "round 0", "on", "on", "fall 0 1 after", "fall 1 3 before", "fall 2 2 after", "falls 7 10",
    "falls 9 3", "falls 0 0", "new", "",
];

const NUMBERS: [&str; 10] = [
    "0", "1", "64", "255", "4294967295", "4294967296", "18446744073709551615", "18446744073709551616", "00", "-1",
];

fn random_bytes(chance: &mut Chance) -> Vec<u8> {
    let many = chance.below(300);
    (0..many).map(|_| chance.below(256) as u8).collect()
}

fn good_lines(chance: &mut Chance) -> Vec<u8> {
    let many = 1 + chance.below(30);
    (0..many).flat_map(|_| format!("{}\n", chance.pick(&LINES)).into_bytes()).collect()
}

// Some bytes are gone, changed, or come twice.
fn damaged(chance: &mut Chance) -> Vec<u8> {
    let mut script = good_lines(chance);
    for _ in 0..1 + chance.below(8) {
        if script.is_empty() {
            break;
        }
        let at = chance.below(script.len() as u64) as usize;
        match chance.below(4) {
            0 => drop(script.remove(at)),
            1 => script[at] = chance.below(256) as u8,
            2 => script.insert(at, script[at]),
            _ => script.truncate(at),
        }
    }
    script
}

// A word of each line may be another number.
fn huge(chance: &mut Chance) -> Vec<u8> {
    let mut script = Vec::new();
    for _ in 0..1 + chance.below(20) {
        let mut words: Vec<&str> = chance.pick(&LINES).split(' ').collect();
        let at = chance.below(words.len() as u64) as usize;
        words[at] = chance.pick(&NUMBERS);
        script.extend_from_slice(words.join(" ").as_bytes());
        script.push(b'\n');
    }
    script
}

fn lines_of(script: &[u8]) -> Vec<&[u8]> {
    let mut lines: Vec<&[u8]> = script.split(|b| *b == b'\n').collect();
    if lines.last().is_some_and(|l| l.is_empty()) {
        lines.pop();
    }
    lines
}

// Millions of rounds would take too long here, and so would an `on` while servers fall over nearly all that they ask.
fn is_short(script: &[u8]) -> bool {
    lines_of(script).iter().all(|line| {
        let words: Vec<&str> = std::str::from_utf8(line).unwrap_or("").split(' ').collect();
        match words[..] {
            ["round", n] => small(n).is_none_or(|n| n <= 1000),
            ["falls", _, rate] => small(rate).is_none_or(|r| r != 1),
            _ => true,
        }
    })
}

fn next_script(chance: &mut Chance) -> Vec<u8> {
    loop {
        let script = match chance.below(4) {
            0 => random_bytes(chance),
            1 => good_lines(chance),
            2 => damaged(chance),
            _ => huge(chance),
        };
        if is_short(&script) {
            return script;
        }
    }
}

#[test]
fn just_the_lines_that_are_none_are_called_so() {
    let mut chance = Chance(20_260_117);
    for _ in 0..6_000 {
        let script = next_script(&mut chance);
        let shown = String::from_utf8_lossy(&script).into_owned();
        let outcome = station::play(&script);
        assert!(outcome.whole, "{shown}");
        let lines = lines_of(&script);
        assert_eq!(outcome.line, lines.len() as u64, "{shown}");
        let text = String::from_utf8(outcome.text).unwrap();
        let wrong: Vec<&str> = text.lines().filter(|l| l.starts_with("line ")).collect();
        let wanted: Vec<String> =
            (1..).zip(&lines).filter(|(_, l)| !is_line(l)).map(|(n, _)| format!("line {n}?")).collect();
        assert_eq!(wrong, wanted, "{shown}");
    }
}

#[test]
fn the_program_prints_the_same() {
    let mut chance = Chance(42);
    for _ in 0..400 {
        let script = next_script(&mut chance);
        let outcome = station::play(&script);
        let (text, said, status) = run_program(&script);
        assert_eq!(text, outcome.text, "{}", String::from_utf8_lossy(&script));
        assert_eq!((said.as_str(), status, outcome.whole), ("", Some(0), true));
    }
}

#[test]
fn little_room_is_no_harm() {
    let mut chance = Chance(77);
    for _ in 0..1_000 {
        let script = next_script(&mut chance);
        let all = station::play(&script).text;
        let bytes = chance.below(200) as usize;
        let some = station::play_in(&script, 73_728 + 8 * 8_192, bytes);
        assert!(some.text.len() <= bytes);
        assert!(all.starts_with(&some.text));
        assert_eq!(some.whole, all.len() <= bytes);
    }
}

// However servers fall, what a program is told is the same if it's waited for.
#[test]
fn falls_change_nothing_that_is_told() {
    let mut chance = Chance(5);
    for _ in 0..300 {
        let mut script = String::new();
        for _ in 0..1 + chance.below(12) {
            script += &format!("1 {}\non\n", chance.pick(&["wait", "take", "open 3 w", "write 0 1 7", "say 5", "kill 9"]));
        }
        let falls = format!("falls {} {}\n", chance.below(1_000_000), 4 + chance.below(20));
        let calm = station::play(script.as_bytes());
        let falling = station::play((falls + &script).as_bytes());
        assert!(calm.whole && falling.whole);
        assert_eq!(calm.text, falling.text, "{script}");
    }
}
