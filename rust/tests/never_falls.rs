//! Random scripts of the nine calls of files and desk, asked by program 1, with falls at any ask, against a machine that
//! never falls, written here in plain Rust.
use station::play;

/// A small generator, so that a failing seed can be played again.
struct Dice(u64);

impl Dice {
    fn roll(&mut self, n: u64) -> u64 {
        self.0 ^= self.0 << 13;
        self.0 ^= self.0 >> 7;
        self.0 ^= self.0 << 17;
        (self.0 >> 11) % n
    }
}

#[derive(Clone, Copy)]
enum Call {
    Open(u32, bool),
    Close(u32),
    Read(u32, u32),
    Write(u32, u32, u64),
    Remove(u32),
    Take,
    Leave,
    Say(u64),
    Hear,
    /// one of the programs' server, which isn't built: the words of its line
    NotBuilt(&'static str),
}

impl Call {
    fn line(&self) -> String {
        match *self {
            Call::Open(n, w) => format!("1 open {n} {}", if w { "w" } else { "r" }),
            Call::Close(h) => format!("1 close {h}"),
            Call::Read(h, a) => format!("1 read {h} {a}"),
            Call::Write(h, a, x) => format!("1 write {h} {a} {x}"),
            Call::Remove(n) => format!("1 remove {n}"),
            Call::Take => "1 take".into(),
            Call::Leave => "1 leave".into(),
            Call::Say(x) => format!("1 say {x}"),
            Call::Hear => "1 hear".into(),
            Call::NotBuilt(words) => format!("1 {words}"),
        }
    }
}

/// The machine that never falls, with program 1 alone on it.
#[derive(Default)]
struct House {
    files: std::collections::HashMap<u32, Vec<u64>>,
    hands: [Option<(u32, bool)>; 8],
    desk: bool,
    screen: u64,
    keys: std::collections::VecDeque<u64>,
    hears: bool,
    printed: String,
}

impl House {
    fn tell(&mut self, what: &str) {
        self.printed.push_str(&format!("1 {what}\n"));
    }

    fn hear(&mut self) {
        if self.hears {
            if let Some(x) = self.keys.pop_front() {
                self.hears = false;
                self.tell(&format!("word {x}"));
            }
        }
    }

    fn key(&mut self, x: u64) {
        self.keys.push_back(x);
        self.hear();
    }

    fn ask(&mut self, call: Call) {
        if self.hears {
            return self.tell("busy");
        }
        let told = self.does(call);
        if let Some(told) = told {
            self.tell(&told);
        }
    }

    fn does(&mut self, call: Call) -> Option<String> {
        let no = |n: u32| Some(format!("no {n}"));
        match call {
            Call::NotBuilt(_) => no(14),
            Call::Open(n, w) => {
                if n >= 64 {
                    return no(1);
                }
                if !self.files.contains_key(&n) && !w {
                    return no(2);
                }
                if self.hands.iter().flatten().any(|(m, v)| *m == n && (w || *v)) {
                    return no(8);
                }
                let Some(h) = self.hands.iter().position(|h| h.is_none()) else { return no(13) };
                self.hands[h] = Some((n, w));
                self.files.entry(n).or_default();
                Some(format!("handle {h}"))
            }
            Call::Close(h) => match self.hand(h) {
                None => no(4),
                Some(_) => {
                    self.hands[h as usize] = None;
                    Some("done".into())
                }
            },
            Call::Read(h, a) => match self.hand(h) {
                None => no(4),
                Some((n, _)) => match self.files[&n].get(a as usize) {
                    None => no(5),
                    Some(x) => Some(format!("word {x}")),
                },
            },
            Call::Write(h, a, x) => match self.hand(h) {
                None => no(4),
                Some((_, false)) => no(6),
                Some((n, true)) => {
                    let words = self.files.get_mut(&n).unwrap();
                    let a = a as usize;
                    if a > words.len() || a >= 256 {
                        return no(5);
                    }
                    if a == words.len() {
                        words.push(x)
                    } else {
                        words[a] = x
                    }
                    Some("done".into())
                }
            },
            Call::Remove(n) => {
                if n >= 64 {
                    return no(1);
                }
                if !self.files.contains_key(&n) {
                    return no(2);
                }
                if self.hands.iter().flatten().any(|(m, _)| *m == n) {
                    return no(8);
                }
                self.files.remove(&n);
                Some("done".into())
            }
            Call::Take => {
                self.desk = true;
                Some("done".into())
            }
            Call::Leave if self.desk => {
                self.desk = false;
                Some("done".into())
            }
            Call::Say(x) if self.desk => {
                self.printed.push_str(&format!("screen {} {x}\n", self.screen));
                self.screen += 1;
                Some("done".into())
            }
            Call::Hear if self.desk => {
                self.hears = true;
                match self.keys.pop_front() {
                    None => None,
                    Some(x) => {
                        self.hears = false;
                        Some(format!("word {x}"))
                    }
                }
            }
            Call::Leave | Call::Say(_) | Call::Hear => no(9),
        }
    }

    fn hand(&self, h: u32) -> Option<(u32, bool)> {
        self.hands.get(h as usize).copied().flatten()
    }
}

fn call(d: &mut Dice) -> Call {
    let n = if d.roll(20) == 0 { 64 + d.roll(3) as u32 } else { d.roll(4) as u32 };
    let h = d.roll(10) as u32;
    let a = if d.roll(30) == 0 { 255 + d.roll(3) as u32 } else { d.roll(5) as u32 };
    let x = d.roll(1000);
    match d.roll(24) {
        0..=5 => Call::Open(n, d.roll(2) == 0),
        6..=8 => Call::Close(h),
        9..=11 => Call::Read(h.min(2), a),
        12..=15 => Call::Write(h.min(2), a, x),
        16 => Call::Remove(n),
        17..=18 => Call::Take,
        19 => Call::Leave,
        20..=21 => Call::Say(x),
        22 => Call::Hear,
        _ => Call::NotBuilt(["spawn 3", "wait", "exit 4", "kill 2"][d.roll(4) as usize]),
    }
}

/// A script, with what a machine that never falls would print.
fn script(seed: u64, calls: usize, rate: u64) -> (String, String) {
    let mut d = Dice(seed * 2 + 1);
    for _ in 0..8 {
        d.roll(2);
    }
    let mut house = House::default();
    let mut text = String::new();
    if rate > 0 {
        text.push_str(&format!("falls {} {rate}\n", d.roll(1 << 31)));
    }
    for _ in 0..calls {
        if rate == 0 && d.roll(3) == 0 {
            let how = if d.roll(2) == 0 { "before" } else { "after" };
            text.push_str(&format!("fall {} {} {how}\n", d.roll(3), 1 + d.roll(60)));
        }
        if d.roll(6) == 0 {
            let x = d.roll(128);
            house.key(x);
            text.push_str(&format!("key {x}\non\n"));
        }
        let c = call(&mut d);
        house.ask(c);
        text.push_str(&c.line());
        text.push_str("\non\n");
    }
    (text, house.printed)
}

fn same(seed: u64, calls: usize, rate: u64) {
    let (text, expected) = script(seed, calls, rate);
    let got = play(text.as_bytes());
    let printed = String::from_utf8_lossy(&got.text).into_owned();
    assert!(got.whole, "seed {seed}, rate {rate}: not played to the end, line {}", got.line);
    assert_eq!(printed, expected, "seed {seed}, rate {rate}, script:\n{text}");
}

#[test]
fn without_falls() {
    for seed in 0..300 {
        let (text, expected) = script(seed, 60, 0);
        let text: String = text.lines().filter(|l| !l.starts_with("fall ")).map(|l| format!("{l}\n")).collect();
        assert_eq!(String::from_utf8_lossy(&play(text.as_bytes()).text), expected, "seed {seed}:\n{text}");
    }
}

#[test]
fn with_single_falls() {
    for seed in 0..600 {
        same(seed, 40, 0);
    }
}

#[test]
fn once_in_twenty() {
    for seed in 0..200 {
        same(seed, 40, 20);
    }
}

#[test]
fn once_in_five() {
    for seed in 0..300 {
        same(seed, 25, 5);
    }
}

#[test]
fn once_in_three() {
    for seed in 0..60 {
        same(seed, 8, 3);
    }
}
