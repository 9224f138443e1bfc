//! What a member tells, in words. Each of these puts them behind a text.
use crate::records::build_text;
use crate::text::Text;
use ballots::{Body, Fact, Note};
use claims::{Claim, Dep, Job};
use member::{Outcome, Sends};
use package_record::Build;

/// The word, and the claim behind it.
pub fn put_claim(word: &str, claim: Claim, out: &mut Text) {
    out.put(word);
    out.put_number(" ", claim.round);
    out.put_number(".", u64::from(claim.member));
}

/// The build: how many packages, how long its text is, and who built it under which claim.
pub fn put_build(build: &Build, out: &mut Text) {
    let text = build_text(build, out);
    let packages = build.packages();
    out.put(" ");
    if let Some(first) = packages.first() {
        out.put_number("", packages.len() as u64);
        out.put_number(" in ", text.len() as u64);
        out.put_number(" bytes by ", u64::from(first.host()));
        put_claim(" under", first.claim(), out);
    }
}

fn put_fact(fact: &Fact, out: &mut Text) {
    match fact {
        Fact::Opened(round) => out.put_number(" opened ", *round),
        Fact::Promised(claim) => put_claim(" promised", *claim, out),
        Fact::Voted(claim, build) => {
            put_claim(" voted", *claim, out);
            put_build(build, out);
        }
        Fact::Held(build) => {
            out.put(" held");
            put_build(build, out);
        }
    }
}

fn put_body(body: &Body, out: &mut Text) {
    match body {
        Body::Offer(claim) => put_claim(" offer", *claim, out),
        Body::Promise(claim, None) => put_claim(" promise", *claim, out),
        Body::Promise(claim, Some((voted, build))) => {
            put_claim(" promise", *claim, out);
            put_claim(" voted", *voted, out);
            put_build(build, out);
        }
        Body::Propose(claim, build) => {
            put_claim(" propose", *claim, out);
            put_build(build, out);
        }
        Body::Vote(claim) => put_claim(" vote", *claim, out),
        Body::Agreed(build) => {
            out.put(" agreed");
            put_build(build, out);
        }
        Body::Ask => out.put(" ask"),
        Body::Nay(claim, promised) => {
            put_claim(" nay", *claim, out);
            put_claim(" after", *promised, out);
        }
    }
}

fn put_note(note: &Note, out: &mut Text) {
    out.put("notes ");
    out.put_bytes(note.path.as_bytes());
    put_fact(&note.fact, out);
    out.put("; ");
}

fn put_sends(sends: &Sends, out: &mut Text) {
    let Some(message) = sends.message() else {
        return;
    };
    out.put("says ");
    out.put_bytes(message.path.as_bytes());
    put_body(&message.body, out);
    out.put(" to");
    for to in sends.receivers() {
        out.put_number(" ", u64::from(*to));
    }
    out.put("; ");
}

/// What is noted, and what is said to whom.
pub fn put_step(note: Option<&Note>, sends: &Sends, out: &mut Text) {
    if let Some(note) = note {
        put_note(note, out);
    }
    put_sends(sends, out);
}

/// The dependency: its path and its digest.
fn put_dep(dep: &Dep, out: &mut Text) {
    out.put(" ");
    out.put_bytes(dep.path.as_bytes());
    out.put(" ");
    out.put_digits(&dep.digest);
}

fn put_job(job: &Job, out: &mut Text) {
    out.put("job ");
    out.put_bytes(job.path.as_bytes());
    out.put(":");
    for path in job.packages() {
        out.put(" ");
        out.put_bytes(path.as_bytes());
    }
    out.put_number(" for ", u64::from(job.host));
    put_claim(" under", job.claim, out);
    out.put(" on");
    for dep in job.deps().as_slice() {
        put_dep(dep, out);
    }
    out.put("; ");
}

/// What is noted, what is said to whom, and the job.
pub fn put_outcome(outcome: &Outcome, out: &mut Text) {
    put_step(outcome.note.as_ref(), &outcome.sends, out);
    if let Some(job) = &outcome.job {
        put_job(job, out);
    }
}
