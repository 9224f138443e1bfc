//! Names, versions, specs and paths, whose texts are in hexadecimal:
//!     name TEXT           the stem, the version and the flavors, or the number of the refusal
//!     compare A B         where the version A stands to B: below, level or above
//!     spec TEXT NAME      whether the spec matches the name, or the number of the refusal
//!     path TEXT           the canonical text of the package path, or the number of the refusal
use crate::text::Text;
use crate::words::{first_bytes, first_word};
use pkgname::{PkgName, Version, is_version};
use pkgpath::PkgPath;
use pkgspec::Spec;
use std::cmp::Ordering;

pub fn answer(line: &str, out: &mut Text) {
    let (question, rest) = first_word(line);
    let (first, rest) = first_bytes(out.alloc(), rest);
    let (second, _) = first_bytes(out.alloc(), rest);
    match question {
        "name" => name(first.as_slice(), out),
        "compare" => out.put(place(first.as_slice(), second.as_slice())),
        "spec" => spec(first.as_slice(), second.as_slice(), out),
        "path" => path(first.as_slice(), out),
        _ => out.put("no question"),
    }
}

fn name(text: &[u8], out: &mut Text) {
    match PkgName::parse(out.alloc(), text) {
        Ok(name) => copied_name(&name, out),
        Err(fault) => out.put_fault(&fault),
    }
}

/// The parts of an equal name.
fn copied_name(name: &PkgName, out: &mut Text) {
    match name.copy() {
        Ok(copy) if copy == *name => parts(&copy, out),
        Ok(_) => out.put("another name"),
        Err(_) => out.lose(),
    }
}

fn parts(name: &PkgName, out: &mut Text) {
    out.put_digits(name.stem());
    out.put(" ");
    out.put_digits(name.version().as_bytes());
    for flavor in name.flavors() {
        out.put(" ");
        out.put_digits(flavor);
    }
}

fn place(own: &[u8], other: &[u8]) -> &'static str {
    if !is_version(own) || !is_version(other) {
        return "no version";
    }
    match Version::new(own).compare(&Version::new(other)) {
        Ordering::Less => "below",
        Ordering::Equal => "level",
        Ordering::Greater => "above",
    }
}

fn spec(text: &[u8], name: &[u8], out: &mut Text) {
    match Spec::parse(out.alloc(), text) {
        Ok(spec) => matched(&spec, name, out),
        Err(fault) => out.put_fault(&fault),
    }
}

/// Whether a copy of the spec matches the name.
fn matched(spec: &Spec, name: &[u8], out: &mut Text) {
    let copy = spec.copy();
    match (&copy, PkgName::parse(out.alloc(), name)) {
        (Ok(spec), Ok(name)) if spec.matches(&name) => out.put("yes"),
        (Ok(_), Ok(_)) => out.put("no"),
        _ => out.put("no name"),
    }
}

/// What a copy of the path is written as.
fn path(text: &[u8], out: &mut Text) {
    match PkgPath::parse(out.alloc(), text) {
        Ok(path) => written(&path, out),
        Err(fault) => out.put_fault(&fault),
    }
}

fn written(path: &PkgPath, out: &mut Text) {
    let mut text = Vec::new(out.alloc());
    match path.copy() {
        Ok(copy) if copy.write_to(&mut text).is_ok() => out.put_digits(text.as_slice()),
        _ => out.lose(),
    }
}
