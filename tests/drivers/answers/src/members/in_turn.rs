//! Calls of a member, one after the other: each is answered by the member that the one before it
//! left.
ghost use Rattle.std.specs.Prelude.{◌≡◌};
ghost use Rattle.faults.specs.Answers.{map_ok};
ghost use Rattle.protocol.specs.State.{State};
ghost use Rattle.protocol.specs.Step.{HasHandled};
ghost use Rattle.member.specs.Outcomes.{told};

use crate::members::told::put_step;
use crate::text::Text;
use member::{Input, Member, Outcome, Refusal};

/// Prepares the step, and takes it.
pub fn stepped(member: &mut Member<'_>, input: Input) -> Result<Outcome, Refusal>
    ensures { HasHandled member.old member.new input (map_ok told result) }
{
    let step = member.prepare(input)?;
    Ok(member.commit(step))
}

/// Prepares the step, and puts what it would note and say behind the text.
pub fn prepared(member: &mut Member<'_>, input: Input, out: &mut Text) -> Result<(), Refusal>
    ensures { member.new ≡ member.old }
{
    let step = member.prepare(input)?;
    put_step(step.note(), step.sends(), out);
    drop(step);
    Ok(())
}

/// Handles both, the second whatever became of the first.
pub fn in_turn(
    member: &mut Member<'_>,
    first: Input,
    second: Input,
) -> (Result<Outcome, Refusal>, Result<Outcome, Refusal>)
    ensures { (between : State)
        × HasHandled member.old between first (map_ok told result.0)
        × HasHandled between member.new second (map_ok told result.1) }
{
    let one = member.handle(first);
    let two = member.handle(second);
    (one, two)
}
