//! The line protocol of the drivers (../line.h describes it), for those in Rust.

use std::cmp::Ordering;
use std::fmt::Write as _;
use std::io::{self, BufRead, Write as _};
use std::time::Duration;

/// What a library does. The default bodies stand for calls that it doesn't have.
pub trait Library {
    type Name;

    const ORDERS: bool = true;
    const COMPOSES: bool = true;

    fn version() -> String;
    fn read(message: &[u8], offset: usize) -> Option<(Self::Name, usize)>;
    fn labels(name: &Self::Name) -> Vec<Vec<u8>>;
    fn from_text(text: &str) -> Option<Self::Name>;
    fn to_text(name: &Self::Name) -> String;
    fn compare(left: &Self::Name, right: &Self::Name) -> Ordering;

    /// Composes names one after another behind a header of 12 octets, and returns the octets written.
    fn compose(_names: &[Self::Name]) -> usize {
        0
    }
}

fn octets(word: &str) -> Vec<u8> {
    (0..word.len() / 2)
        .map(|i| u8::from_str_radix(&word[2 * i..2 * i + 2], 16).expect("octets in hexadecimal"))
        .collect()
}

fn hex(octets: &[u8]) -> String {
    octets.iter().fold(String::new(), |mut text, octet| {
        write!(text, "{octet:02x}").unwrap();
        text
    })
}

fn shown<L: Library>(name: &L::Name) -> String {
    let labels: Vec<_> = L::labels(name).iter().map(|label| hex(label)).collect();
    if labels.is_empty() { ".".into() } else { labels.join(".") }
}

fn name<L: Library>(wire: &str) -> L::Name {
    L::read(&octets(wire), 0).expect("a name").0
}

#[repr(C)]
struct Timespec {
    seconds: i64,
    nanoseconds: i64,
}

unsafe extern "C" {
    fn clock_gettime(clock: i32, time: *mut Timespec) -> i32;
}

/// The time of the processor that the process took so far.
fn now() -> Duration {
    const CLOCK_PROCESS_CPUTIME_ID: i32 = 2;
    let mut time = Timespec { seconds: 0, nanoseconds: 0 };
    unsafe { clock_gettime(CLOCK_PROCESS_CPUTIME_ID, &mut time) };
    Duration::new(time.seconds as u64, time.nanoseconds as u32)
}

/// Rounds for two tenths of a second, at least one and at most 200; the best counts.
fn measure(mut round: impl FnMut() -> usize) -> String {
    let begun = now();
    let mut best = Duration::MAX;
    let mut count = 0;
    for i in 0..200 {
        if i > 0 && now() - begun > Duration::from_millis(200) {
            break;
        }
        let start = now();
        count = round();
        best = best.min(now() - start);
    }
    format!("ok {} {count}", best.as_nanos())
}

fn time<L: Library>(what: &str, path: &str) -> String {
    let file = std::fs::read_to_string(path).expect("the file to time");
    if what == "read" {
        let (message, offsets) = file.split_once('\n').expect("two lines");
        let message = octets(message);
        let offsets: Vec<usize> = offsets.split_whitespace().map(|word| word.parse().unwrap()).collect();
        return measure(|| offsets.iter().filter(|&&offset| L::read(&message, offset).is_some()).count());
    }
    if if what == "compose" { !L::COMPOSES } else { !L::ORDERS } {
        return "none".into();
    }
    let names: Vec<_> = file.lines().map(name::<L>).collect();
    match what {
        "compare" => measure(|| names.windows(2).filter(|pair| L::compare(&pair[0], &pair[1]).is_lt()).count()),
        "sort" => measure(|| {
            let mut sorted: Vec<_> = names.iter().collect();
            sorted.sort_by(|left, right| L::compare(left, right));
            sorted.len()
        }),
        _ => measure(|| L::compose(&names)),
    }
}

fn answer<L: Library>(line: &str) -> String {
    let words: Vec<_> = line.split_whitespace().collect();
    match words[..] {
        ["version"] => format!("ok {}", L::version()),
        ["read", message, offset] => match L::read(&octets(message), offset.parse().expect("an offset")) {
            Some((name, end)) => format!("ok {} {end}", shown::<L>(&name)),
            None => "no".into(),
        },
        ["text", text] => match String::from_utf8(octets(text)).ok().and_then(|text| L::from_text(&text)) {
            Some(name) => format!("ok {}", shown::<L>(&name)),
            None => "no".into(),
        },
        ["show", wire] => match hex(L::to_text(&name::<L>(wire)).as_bytes()) {
            text if text.is_empty() => "ok -".into(),
            text => format!("ok {text}"),
        },
        ["sort", ref wires @ ..] if L::ORDERS => {
            let mut names: Vec<_> = wires.iter().map(|wire| name::<L>(wire)).collect();
            names.sort_by(L::compare);
            names.iter().fold("ok".into(), |line, name| line + " " + &shown::<L>(name))
        }
        ["time", what, path] => time::<L>(what, path),
        _ => "none".into(),
    }
}

pub fn run<L: Library>() {
    for line in io::stdin().lock().lines() {
        println!("{}", answer::<L>(&line.expect("a line")));
        io::stdout().flush().expect("standard output");
    }
}
