//! What a member knows.
use crate::members::told::{put_build, put_claim};
use crate::records::put_digest;
use crate::text::Text;
use ballots::Claimer;
use member::Member;
use pkgpath::PkgPath;

pub fn put_held(member: &Member<'_>, path: &PkgPath, out: &mut Text) {
    match member.held(path) {
        Some(record) => {
            out.put_bytes(record.path().as_bytes());
            out.put_number(" by ", u64::from(record.host()));
            out.put(" ");
            put_digest(record, out);
        }
        None => out.put("nothing"),
    }
}

pub fn put_facts(member: &Member<'_>, path: &PkgPath, out: &mut Text) {
    out.put_number("opened ", member.opened(path));
    out.put(" promised");
    if let Some(claim) = member.promised(path) {
        put_claim("", claim, out);
        out.put(" ");
    }
    out.put(" voted");
    if let Some((claim, build)) = member.voted(path) {
        put_claim("", *claim, out);
        put_build(build, out);
    }
}

/// The open claim, its host, and how far it is.
pub fn put_open_claim(member: &Member<'_>, out: &mut Text) {
    match member.open_claim() {
        Some(open) => {
            out.put_number("unit ", u64::from(open.unit));
            out.put_number(" for ", u64::from(open.host));
            put_claim("", open.claimer.claim(), out);
            out.put(match &open.claimer {
                Claimer::Gathering { .. } => " gathering",
                Claimer::Building { .. } => " building",
                Claimer::Voting { .. } => " voting",
            });
        }
        None => out.put("nothing"),
    }
}
