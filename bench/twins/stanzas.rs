//! The twin of the bench program in `bench/stanzas`: the same reading of control files in Rust, over
//! std alone. Built with `rustc -O`.
use std::time::Instant;

pub struct Field<'a> {
    pub name: &'a str,
    pub value: &'a str,
}

pub struct StanzaList<'a> {
    pub fields: Vec<Field<'a>>,
    pub starts: Vec<usize>,
}

fn is_blank_byte(b: u8) -> bool {
    b == b' ' || b == b'\t'
}

fn is_separator(line: &str) -> bool {
    line.bytes().all(is_blank_byte)
}

fn begins_blank(text: &str) -> bool {
    text.as_bytes().first().is_some_and(|b| is_blank_byte(*b))
}

fn next_line(text: &str) -> (&str, Option<&str>) {
    match text.split_once('\n') {
        Some((line, rest)) => (line, Some(rest)),
        None => (text, None),
    }
}

fn continues(text: &str) -> bool {
    begins_blank(text) && !is_separator(next_line(text).0)
}

fn is_field_name(name: &str) -> bool {
    let bytes = name.as_bytes();
    !bytes.is_empty()
        && bytes[0] != b'#'
        && bytes[0] != b'-'
        && bytes.iter().all(|b| matches!(b, 33..=57 | 59..=126))
}

fn skip_continuations(after: Option<&str>) -> Option<&str> {
    let mut rest = after;
    while let Some(here) = rest {
        if !continues(here) {
            return rest;
        }
        rest = next_line(here).1;
    }
    None
}

fn take_field<'a>(here: &'a str, name: &'a str, after: Option<&'a str>) -> (Field<'a>, Option<&'a str>) {
    let rest = skip_continuations(after);
    let tail = &here[name.len() + 1..];
    let raw = match rest {
        None => tail,
        Some(rest) => &tail[..tail.len() - rest.len() - 1],
    };
    (Field { name, value: raw.trim_matches([' ', '\t']) }, rest)
}

#[derive(Debug)]
pub enum Fault {
    BadName(usize),
    NoColon(usize),
    ContinuationFirst(usize),
    Duplicate(usize),
}

fn line_number(text: &str, here: &str) -> usize {
    text.as_bytes()[..text.len() - here.len()].iter().filter(|b| **b == b'\n').count() + 1
}

fn name_at<'a>(text: &str, here: &str, line: &'a str, fields: &[Field]) -> Result<&'a str, Fault> {
    if begins_blank(line) {
        return Err(Fault::ContinuationFirst(line_number(text, here)));
    }
    let (name, rest) = match line.find(':') {
        Some(place) => line.split_at(place),
        None => (line, ""),
    };
    if !is_field_name(name) {
        return Err(Fault::BadName(line_number(text, here)));
    }
    if rest.is_empty() {
        return Err(Fault::NoColon(line_number(text, here)));
    }
    if fields.iter().any(|f| f.name.eq_ignore_ascii_case(name)) {
        return Err(Fault::Duplicate(line_number(text, here)));
    }
    Ok(name)
}

pub fn stanzas(text: &str) -> Result<StanzaList<'_>, Fault> {
    let mut list = StanzaList { fields: Vec::new(), starts: Vec::new() };
    let mut first = 0;
    let mut rest = Some(text);
    while let Some(here) = rest {
        let (line, after) = next_line(here);
        if is_separator(line) {
            first = list.fields.len();
            rest = after;
        } else {
            let name = name_at(text, here, line, &list.fields[first..])?;
            let (field, after) = take_field(here, name, after);
            if first == list.fields.len() {
                list.starts.push(first);
            }
            list.fields.push(field);
            rest = after;
        }
    }
    Ok(list)
}

pub fn stanza<'s, 'a>(list: &'s StanzaList<'a>, number: usize) -> &'s [Field<'a>] {
    let end = list.starts.get(number + 1).copied().unwrap_or(list.fields.len());
    &list.fields[list.starts[number]..end]
}

fn count(list: &StanzaList<'_>, name: &str) -> (u64, u64) {
    let (mut fields, mut bytes) = (0u64, 0u64);
    for number in 0..list.starts.len() {
        let stanza = stanza(list, number);
        fields += stanza.len() as u64;
        if let Some(field) = stanza.iter().find(|f| f.name.eq_ignore_ascii_case(name)) {
            bytes += field.value.len() as u64;
        }
    }
    (fields, bytes)
}

fn main() {
    let path = std::env::args().nth(1).unwrap_or("data/Packages".into());
    let text = std::fs::read_to_string(path).unwrap();
    let start = Instant::now();
    let list = stanzas(&text).unwrap();
    let read = start.elapsed().as_micros();
    let start = Instant::now();
    let (fields, bytes) = count(&list, "depends");
    let counted = start.elapsed().as_micros();
    eprintln!("read {read} us, looked up {counted} us");
    println!("{} stanzas, {fields} fields, {bytes} bytes of Depends", list.starts.len());
}
