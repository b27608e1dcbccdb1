//! The twin of `transdesk check` for `bench/check`: the same reading of a table of architectures and
//! two indices in Rust, over std alone, with the same checks. Built with `rustc -O`.
#[allow(dead_code)]
#[path = "relations.rs"]
mod relations;
#[allow(dead_code)]
#[path = "stanzas.rs"]
mod stanzas;

use relations::versions::{self, Version};
use relations::{Relation, is_name_byte, is_space, run, words};
use stanzas::{Field, StanzaList};
use std::cmp::Ordering;
use std::collections::HashMap;
use std::collections::hash_map::Entry;

struct Arch<'a> {
    name: &'a str,
    os: &'a str,
    cpu: &'a str,
}

impl Arch<'_> {
    fn matches(&self, word: &[u8]) -> bool {
        let Ok(word) = std::str::from_utf8(word) else {
            return false;
        };
        word == "any"
            || word == self.name
            || word.strip_suffix("-any") == Some(self.os)
            || word.strip_prefix("any-") == Some(self.cpu)
    }
}

#[allow(dead_code)]
struct Packaged<'a> {
    version: Version<'a>,
    source: &'a str,
    source_version: Version<'a>,
    provides: Option<Relation<'a>>,
}

#[allow(dead_code)]
struct Sourced<'a> {
    version: Version<'a>,
    archs: &'a str,
    build_depends: Option<Relation<'a>>,
    build_depends_arch: Option<Relation<'a>>,
}

fn value<'a>(fields: &[Field<'a>], name: &str) -> Option<&'a str> {
    let field = fields.iter().find(|f| f.name.eq_ignore_ascii_case(name))?;
    Some(field.value)
}

fn is_name(text: &str) -> bool {
    let bytes = text.as_bytes();
    bytes.len() > 1
        && (bytes[0].is_ascii_lowercase() || bytes[0].is_ascii_digit())
        && bytes.iter().all(|b| is_name_byte(*b))
}

fn name_in<'a>(fields: &[Field<'a>], field: &str) -> Option<&'a str> {
    value(fields, field).filter(|text| is_name(text))
}

fn origin<'a>(name: &'a str, source: Option<&'a str>) -> Option<(&'a str, Option<&'a str>)> {
    let Some(text) = source else {
        return Some((name, None));
    };
    match text.split_once('(') {
        None => is_name(text).then_some((text, None)),
        Some((front, rest)) => {
            let (name, blank) = run(front, is_name_byte);
            (is_name(name) && blank.bytes().all(is_space)).then_some((name, Some(rest)))
        }
    }
}

fn relation_in(value: Option<&str>) -> Option<Option<Relation<'_>>> {
    match value {
        None => Some(None),
        Some(text) if text.bytes().all(is_space) => Some(None),
        Some(text) => Some(Some(relations::read(text)?)),
    }
}

type Binaries<'a> = HashMap<(&'a str, Option<usize>), Packaged<'a>>;

fn take_binary<'a>(kept: &mut Binaries<'a>, archs: &[Arch], fields: &[Field<'a>]) -> Option<()> {
    let name = name_in(fields, "Package")?;
    let version = value(fields, "Version")?;
    let arch = match value(fields, "Architecture")? {
        "all" => None,
        arch => match archs.iter().position(|a| a.name == arch) {
            Some(place) => Some(place),
            None => return Some(()),
        },
    };
    let (source, bracket) = origin(name, value(fields, "Source"))?;
    let version = versions::read(version)?;
    let source_version = match bracket {
        None => version,
        Some(rest) => match rest.split_once(')')? {
            (inside, "") => versions::read(inside)?,
            _ => return None,
        },
    };
    relation_in(value(fields, "Depends"))?;
    relation_in(value(fields, "Pre-Depends"))?;
    let provides = relation_in(value(fields, "Provides"))?;
    let packaged = Packaged { version, source, source_version, provides };
    match kept.entry((name, arch)) {
        Entry::Vacant(place) => {
            place.insert(packaged);
        }
        Entry::Occupied(mut place) => {
            let order = versions::cmp_version(&place.get().version, &packaged.version);
            if order == Ordering::Less {
                place.insert(packaged);
            }
        }
    }
    Some(())
}

fn take_source<'a>(kept: &mut HashMap<&'a str, Sourced<'a>>, fields: &[Field<'a>]) -> Option<()> {
    if value(fields, "Extra-Source-Only") == Some("yes") {
        return Some(());
    }
    let name = name_in(fields, "Package")?;
    let version = value(fields, "Version")?;
    let archs = value(fields, "Architecture")?;
    let sourced = Sourced {
        version: versions::read(version)?,
        archs,
        build_depends: relation_in(value(fields, "Build-Depends"))?,
        build_depends_arch: relation_in(value(fields, "Build-Depends-Arch"))?,
    };
    match kept.entry(name) {
        Entry::Vacant(place) => {
            place.insert(sourced);
        }
        Entry::Occupied(mut place) => {
            let order = versions::cmp_version(&place.get().version, &sourced.version);
            if order == Ordering::Less {
                place.insert(sourced);
            }
        }
    }
    Some(())
}

fn read_archs(text: &str) -> Vec<Arch<'_>> {
    let lines = text.lines().filter(|line| !line.is_empty() && !line.starts_with('#'));
    let arch = |line| {
        let mut words = str::split(line, ' ');
        let mut word = || words.next().expect("NAME OS CPU");
        Arch { name: word(), os: word(), cpu: word() }
    };
    lines.map(arch).collect()
}

fn read_stanzas(text: &str) -> StanzaList<'_> {
    stanzas::stanzas(text).expect("stanzas")
}

fn main() {
    let paths: Vec<String> = std::env::args().skip(1).collect();
    let texts: Vec<String> =
        paths.iter().map(|path| std::fs::read_to_string(path).expect("a text")).collect();
    let archs = read_archs(&texts[0]);
    let packages = read_stanzas(&texts[1]);
    let source_stanzas = read_stanzas(&texts[2]);
    let mut binaries = HashMap::with_capacity(packages.starts.len());
    for number in 0..packages.starts.len() {
        let fields = stanzas::stanza(&packages, number);
        take_binary(&mut binaries, &archs, fields).expect("a binary package");
    }
    let mut sources = HashMap::with_capacity(source_stanzas.starts.len());
    for number in 0..source_stanzas.starts.len() {
        let fields = stanzas::stanza(&source_stanzas, number);
        take_source(&mut sources, fields).expect("a source");
    }
    let mut rows = 0;
    for sourced in sources.values() {
        rows += archs.iter().filter(|a| words(sourced.archs).any(|word| a.matches(word))).count();
    }
    println!("sources {} binaries {} rows {rows}", sources.len(), binaries.len());
}
