//! The twin of the bench program in `bench/versions`: the same reading and the same order of Debian
//! versions in Rust, over std alone. Built with `rustc -O`.
use std::cmp::Ordering;
use std::io::Read;

#[derive(Clone, Copy)]
pub struct Version<'a> {
    pub epoch: u32,
    pub upstream: &'a str,
    revision: Option<&'a str>,
}

pub fn is_revision_byte(byte: u8) -> bool {
    matches!(byte, b'a'..=b'z' | b'A'..=b'Z' | b'0'..=b'9' | b'.' | b'+' | b'~')
}

pub fn is_upstream_byte(byte: u8, has_epoch: bool) -> bool {
    is_revision_byte(byte) || byte == b'-' || (has_epoch && byte == b':')
}

fn read_epoch(digits: &str) -> Option<u32> {
    if digits.starts_with('+') {
        return None;
    }
    digits
        .parse::<u32>()
        .ok()
        .filter(|epoch| *epoch <= 2_147_483_647)
}

pub fn read(text: &str) -> Option<Version<'_>> {
    let (epoch, rest) = match text.split_once(':') {
        Some((digits, rest)) => (Some(digits), rest),
        None => (None, text),
    };
    let (upstream, revision) = match rest.rsplit_once('-') {
        Some((upstream, revision)) => (upstream, Some(revision)),
        None => (rest, None),
    };
    let number = match epoch {
        Some(digits) => read_epoch(digits)?,
        None => 0,
    };
    if upstream.is_empty()
        || !upstream
            .bytes()
            .all(|b| is_upstream_byte(b, epoch.is_some()))
    {
        return None;
    }
    if let Some(revision) = revision {
        if revision.is_empty() || !revision.bytes().all(is_revision_byte) {
            return None;
        }
    }
    Some(Version {
        epoch: number,
        upstream,
        revision,
    })
}

fn mark_of(symbol: u8) -> u16 {
    match symbol {
        b'~' => 0,
        b'a'..=b'z' | b'A'..=b'Z' => symbol as u16 + 2,
        _ => symbol as u16 + 258,
    }
}

fn first_mark(part: &[u8]) -> u16 {
    match part {
        [symbol, ..] if !symbol.is_ascii_digit() => mark_of(*symbol),
        _ => 1,
    }
}

fn split_digits(part: &[u8]) -> (&[u8], &[u8]) {
    let count = part.iter().position(|b| !b.is_ascii_digit());
    part.split_at(count.unwrap_or(part.len()))
}

fn without_zeros(digits: &[u8]) -> &[u8] {
    let mut rest = digits;
    while let [b'0', after @ ..] = rest {
        rest = after;
    }
    rest
}

fn cmp_digits(a: &[u8], b: &[u8]) -> Ordering {
    let a = without_zeros(a);
    let b = without_zeros(b);
    a.len().cmp(&b.len()).then_with(|| a.cmp(b))
}

fn cmp_part(a: &str, b: &str) -> Ordering {
    let mut left = a.as_bytes();
    let mut right = b.as_bytes();
    while !left.is_empty() || !right.is_empty() {
        let mark = first_mark(left);
        let order = mark.cmp(&first_mark(right));
        if order != Ordering::Equal {
            return order;
        }
        if mark == 1 {
            let (left_digits, left_rest) = split_digits(left);
            let (right_digits, right_rest) = split_digits(right);
            let order = cmp_digits(left_digits, right_digits);
            if order != Ordering::Equal {
                return order;
            }
            left = left_rest;
            right = right_rest;
        } else {
            left = &left[1..];
            right = &right[1..];
        }
    }
    Ordering::Equal
}

pub fn cmp_version(a: &Version, b: &Version) -> Ordering {
    a.epoch
        .cmp(&b.epoch)
        .then_with(|| cmp_part(a.upstream, b.upstream))
        .then_with(|| cmp_part(a.revision.unwrap_or("0"), b.revision.unwrap_or("0")))
}

fn main() {
    let rounds: u32 = std::env::args()
        .nth(1)
        .and_then(|n| n.parse().ok())
        .unwrap_or(1);
    let mut text = String::new();
    std::io::stdin()
        .read_to_string(&mut text)
        .expect("standard input");
    let (mut less, mut equal, mut greater, mut unread) = (0u64, 0u64, 0u64, 0u64);
    for _ in 0..rounds {
        let mut before: Option<Version> = None;
        for line in text.lines() {
            let version = match read(line) {
                Some(version) => version,
                None => {
                    unread += 1;
                    continue;
                }
            };
            if let Some(other) = &before {
                match cmp_version(other, &version) {
                    Ordering::Less => less += 1,
                    Ordering::Equal => equal += 1,
                    Ordering::Greater => greater += 1,
                }
            }
            before = Some(version);
        }
    }
    println!("less {less} equal {equal} greater {greater} unread {unread}");
}
