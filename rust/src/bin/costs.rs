//! Prints what each kind of call takes: asks of the kernel until it's told, without falls; and rounds at falls once in ten, five and three.
use station::play;

/// What comes before the call, and the call.
const CALLS: [(&str, &str); 11] = [
    ("", "1 open 3 w"),
    ("1 open 3 w\non\n1 close 0\non\n", "1 open 3 r"),
    ("1 open 3 w\non\n", "1 close 0"),
    ("1 open 3 w\non\n1 write 0 0 7\non\n", "1 read 0 0"),
    ("1 open 3 w\non\n", "1 write 0 0 7"),
    ("1 open 3 w\non\n1 close 0\non\n", "1 remove 3"),
    ("", "1 take"),
    ("1 take\non\n", "1 leave"),
    ("1 take\non\n", "1 say 5"),
    ("1 take\non\nkey 65\n", "1 hear"),
    ("", "1 spawn 3"),
];

fn server(call: &str) -> u32 {
    match call.split(' ').nth(1).unwrap() {
        "spawn" | "exit" | "wait" | "kill" => 0,
        "open" | "close" | "read" | "write" | "remove" => 1,
        _ => 2,
    }
}

/// How many lines are told of program 1.
fn told(script: &str) -> usize {
    let played = play(script.as_bytes());
    String::from_utf8_lossy(&played.text).lines().filter(|l| l.starts_with("1 ")).count()
}

/// The ask that tells it: the last one before which a fall keeps it from being told in that round.
fn asks(before: &str, call: &str) -> u32 {
    let base = told(before);
    (1..200).filter(|n| told(&format!("{before}{call}\nfall {} {n} before\nround 1\n", server(call))) == base).max().unwrap_or(0)
}

/// The rounds until it's told, with this seed.
fn rounds(before: &str, call: &str, rate: u32, seed: u32) -> u64 {
    let base = told(before);
    let is_told = |n: u64| told(&format!("{before}{call}\nfalls {seed} {rate}\nround {n}\n")) > base;
    let mut high = 1;
    while !is_told(high) {
        high *= 2;
        if high > 1 << 24 {
            return high;
        }
    }
    let mut low = high / 2;
    while low + 1 < high {
        let mid = (low + high) / 2;
        if is_told(mid) {
            high = mid
        } else {
            low = mid
        }
    }
    high
}

fn main() {
    println!("| call | asks | rounds at once in ten | in five | in three |");
    println!("|---|---|---|---|---|");
    for (before, call) in CALLS {
        let row: Vec<String> = [10, 5, 3]
            .iter()
            .map(|rate| {
                let mut seen: Vec<u64> = (1..=9).map(|seed| rounds(before, call, *rate, seed * 7919)).collect();
                seen.sort();
                format!("{} ({})", seen[4], seen[8])
            })
            .collect();
        println!("| `{}` | {} | {} | {} | {} |", &call[2..], asks(before, call), row[0], row[1], row[2]);
    }
    println!("\nRounds: the middle of nine seeds, and the most, in brackets.");
}
