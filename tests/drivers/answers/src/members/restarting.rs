//! A member that restores what another noted.
ghost use Rattle.std.specs.Prelude.{◌≡◌, ◌<◌, ◌++◌, ◌∷◌, [], IfOk, List, OnOk, length};
ghost use Rattle.ballots.specs.declared.message.Note.{Note};
ghost use Rattle.protocol.specs.Restoring.{AreOnUnits, restored};
ghost use Rattle.protocol.specs.State.{Value, fresh};

use crate::letters::{put_counts, put_letter};
use crate::members::post::Post;
use crate::text::Text;
use ballots::{Note, Weights};
use faults::Memory;
use listing::Tree;
use member::{Member, Outcome};
use std::alloc::Global;
use std::mem;

/// A new member restores what the one with this number noted, and takes its place. The letters of
/// all packages are told, and how many of each there are.
pub fn restart(post: &mut Post<'_>, at: usize, out: &mut Text) {
    if at >= post.weights.len() {
        return out.put("no member");
    }
    let given = post.given.as_slice();
    match restored(post.tree, &post.weights, at as u8, given, out.alloc()) {
        Ok(member) => {
            put_letters(&member, post.tree, out);
            if let Some(place) = post.members.get_mut(at) {
                drop(mem::replace(place, member));
            }
        }
        Err(Memory) => out.lose(),
    }
}

/// A new member, which is what it restores of the notes that are about its units, of those that
/// the one with its number gave.
fn restored<'a>(
    tree: &'a Tree,
    weights: &Weights,
    me: u8,
    given: &[(usize, Outcome)],
    alloc: Global,
) -> Result<Member<'a>, Memory>
    requires { me < length weights.now }
    ensures tree { IfOk result (λ m. m.division.tree ≡ tree.entry.now) }
    ensures restored { IfOk result (λ m. (kept : List (Note Value))
        × (m ≡ restored (fresh m.division weights.now me) kept)) }
{
    let mut member = Member::new(alloc, tree, weights, me)?;
    match on_units(&member, alloc, tree.digest(), given, usize::from(me)) {
        Ok(notes) => {
            member.restore(notes);
            Ok(member)
        }
        Err(memory) => {
            drop(member);
            Err(memory)
        }
    }
}

/// What the one with this number noted about units of the member's tree.
fn on_units(
    member: &Member<'_>,
    alloc: Global,
    digest: [u8; 32],
    given: &[(usize, Outcome)],
    at: usize,
) -> Result<Vec<Note>, Memory>
    ensures { IfOk result (λ notes. AreOnUnits member.now.division notes.items) }
{
    let mut kept = Vec::new(alloc);
    for (of, outcome) in given {
        if let Some(note) = &outcome.note
            && *of == at
            && member.test_header(&digest, &[], &note.path).is_ok()
        {
            add(&mut kept, note)?;
        }
    }
    Ok(kept)
}

fn add(notes: &mut Vec<Note>, note: &Note) -> Result<(), Memory>
    ensures { OnOk result (notes.new.items ≡ notes.old.items ++ (note.now ∷ [])) }
{
    notes.push(note.copy()?)?;
    Ok(())
}

fn put_letters(member: &Member<'_>, tree: &Tree, out: &mut Text)
    requires { member.now.division.tree ≡ tree.now }
{
    put_counts(member.counts(), out);
    out.put(" ");
    for position in 0..tree.len() {
        put_letter(member.letter(position), out);
    }
}
