//! What a run ends with.
ghost use Rattle.std.specs.Prelude.{◌≡◌, true};
ghost use Rattle.world.specs.Happening.{is_up};

use crate::letters::put_letter;
use crate::text::Text;
use faults::Fault;
use listing::Tree;
use simulator::{World, run};
use traces::Trace;

/// Puts how many events the run took, and what each node shows; or what it is refused with.
pub fn put_shown(tree: &Tree, trace: Trace, out: &mut Text) {
    let Trace { weights, events } = trace;
    match run(out.alloc(), tree, &weights, events) {
        Ok(world) => {
            put_nodes(&world, tree, out);
            drop(world);
        }
        Err(fault) => {
            out.put_number("", u64::from(fault.number()));
            out.put_number(" at ", fault.place().unwrap_or(0));
            out.put_number(" for ", u64::from(fault.cause().unwrap_or(0)));
        }
    }
}

fn put_nodes(world: &World<'_>, tree: &Tree, out: &mut Text)
    requires { world.now.world.division.tree ≡ tree.now }
{
    out.put_number("", world.events().len() as u64);
    out.put(" events");
    for node in 0..world.len() {
        if world.is_up(node) {
            out.put("; up ");
            put_letters(world, tree, node, out);
        } else {
            out.put("; down");
        }
    }
}

fn put_letters(world: &World<'_>, tree: &Tree, node: u8, out: &mut Text)
    requires tree { world.now.world.division.tree ≡ tree.now }
    requires up { is_up world.now.world node ≡ true }
{
    for position in 0..tree.len() {
        put_letter(world.letter(node, position), out);
        if world.held(node, tree.path(position)).is_some() {
            out.put(" held");
        }
    }
}
