//! The twin of the bench program in `bench/relations`: the same reading of relations in Rust, over
//! std alone, into one list of alternatives and the sizes of members. Built with `rustc -O`.
#[allow(dead_code)]
#[path = "versions.rs"]
pub mod versions;

use std::io::Read;
use versions::{Version, is_upstream_byte};

#[derive(Clone, Copy)]
pub enum Operator {
    Earlier,
    EarlierOrEqual,
    Equal,
    LaterOrEqual,
    Later,
}

#[allow(dead_code)]
pub struct Alternative<'a> {
    name: &'a str,
    restriction: Option<(Operator, Version<'a>)>,
    archs: Option<&'a str>,
    unprofiled: bool,
}

pub struct Relation<'a> {
    alternatives: Vec<Alternative<'a>>,
    sizes: Vec<usize>,
}

pub fn is_space(byte: u8) -> bool {
    byte == b' ' || byte == b'\t' || byte == b'\n'
}

pub fn run(text: &str, test: impl Fn(u8) -> bool) -> (&str, &str) {
    text.split_at(text.bytes().take_while(|b| test(*b)).count())
}

fn trimmed(text: &str) -> &str {
    run(text, is_space).1
}

fn is_arch_byte(byte: u8) -> bool {
    matches!(byte, b'a'..=b'z' | b'0'..=b'9' | b'-')
}

pub fn is_name_byte(byte: u8) -> bool {
    is_arch_byte(byte) || byte == b'+' || byte == b'.'
}

fn is_name(text: &str) -> bool {
    let bytes = text.as_bytes();
    bytes.len() > 1 && (bytes[0].is_ascii_lowercase() || bytes[0].is_ascii_digit())
}

fn begins(text: &str, marks: &[u8]) -> bool {
    text.is_empty() || marks.contains(&text.as_bytes()[0])
}

pub fn words(list: &str) -> impl Iterator<Item = &[u8]> {
    list.as_bytes()
        .split(|b| is_space(*b))
        .filter(|word| !word.is_empty())
}

fn is_arch(word: &[u8]) -> bool {
    !word.is_empty() && word.iter().all(|b| is_arch_byte(*b))
}

fn bare(word: &[u8]) -> &[u8] {
    word.strip_prefix(b"!").unwrap_or(word)
}

fn is_arch_list(list: &str) -> bool {
    words(list).next().is_some()
        && (words(list).all(is_arch)
            || words(list).all(|word| word[0] == b'!' && is_arch(bare(word))))
}

fn is_profile(word: &[u8]) -> bool {
    !word.is_empty() && !word.iter().any(|b| *b == b'<' || *b == b'!')
}

fn read_unprofiled(text: &str) -> Option<bool> {
    if text.is_empty() {
        return Some(true);
    }
    let mut holds = false;
    let mut rest = text;
    while !rest.is_empty() {
        let (list, after) = rest.strip_prefix('<')?.split_once('>')?;
        if words(list).next().is_none() || !words(list).all(|word| is_profile(bare(word))) {
            return None;
        }
        holds |= words(list).all(|word| word[0] == b'!');
        rest = trimmed(after);
    }
    Some(holds)
}

fn read_restriction(text: &str) -> Option<(Option<(Operator, Version<'_>)>, &str)> {
    let Some(inside) = text.strip_prefix('(') else {
        return Some((None, text));
    };
    let (operator, rest) = run(trimmed(inside), |b| matches!(b, b'<' | b'=' | b'>'));
    let operator = match operator {
        "<<" => Operator::Earlier,
        "<=" => Operator::EarlierOrEqual,
        "=" => Operator::Equal,
        ">=" => Operator::LaterOrEqual,
        ">>" => Operator::Later,
        _ => return None,
    };
    let (version, rest) = run(trimmed(rest), |b| is_upstream_byte(b, true));
    let version = versions::read(version)?;
    let rest = trimmed(trimmed(rest).strip_prefix(')')?);
    begins(rest, b"[<").then_some((Some((operator, version)), rest))
}

fn read_archs(text: &str) -> Option<(Option<&str>, &str)> {
    let Some(inside) = text.strip_prefix('[') else {
        return Some((None, text));
    };
    let (list, rest) = inside.split_once(']')?;
    is_arch_list(list).then_some((Some(list), trimmed(rest)))
}

fn read_alternative(text: &str) -> Option<Alternative<'_>> {
    let (name, rest) = run(trimmed(text), is_name_byte);
    let rest = match rest.strip_prefix(':') {
        None => rest,
        Some(word) => match run(word, is_arch_byte) {
            ("", _) => return None,
            (_, rest) => rest,
        },
    };
    let rest = trimmed(rest);
    if !is_name(name) || !begins(rest, b"([<") {
        return None;
    }
    let (restriction, rest) = read_restriction(rest)?;
    let (archs, rest) = read_archs(rest)?;
    let unprofiled = read_unprofiled(rest)?;
    Some(Alternative {
        name,
        restriction,
        archs,
        unprofiled,
    })
}

pub fn read(text: &str) -> Option<Relation<'_>> {
    let mut relation = Relation {
        alternatives: Vec::new(),
        sizes: Vec::new(),
    };
    for member in text.split(',') {
        if member.bytes().all(is_space) {
            continue;
        }
        let before = relation.alternatives.len();
        for piece in member.split('|') {
            relation.alternatives.push(read_alternative(piece)?);
        }
        relation.sizes.push(relation.alternatives.len() - before);
    }
    (!relation.sizes.is_empty()).then_some(relation)
}

fn main() {
    let rounds = std::env::args().nth(1).and_then(|word| word.parse::<u32>().ok());
    let mut text = String::new();
    std::io::stdin().read_to_string(&mut text).expect("a text");
    let (mut read_ones, mut refused) = (0u64, 0u64);
    for _ in 0..rounds.unwrap_or(1) {
        for line in text.lines() {
            match read(line) {
                Some(relation) => read_ones += relation.sizes.len().min(1) as u64,
                None => refused += 1,
            }
        }
    }
    println!("read {read_ones} refused {refused}");
}
