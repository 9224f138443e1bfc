//! Members that are handed each other's messages by hand, in rows which blank lines part.
//! A row begins with `members` and what each weighs, and with the lines of a
//! listing, each behind `listing`. Each line behind that asks something, and is told again with its
//! answer. Messages have numbers, in order of sending from 0; K is a member's number.
//!
//! - `claim K PATH HOST ABOVE`, `failed K PATH`, `nudge K`, `ask K PATH`, and `built K PATH` with
//!   what stands behind it, which is for each package its path, a file's name and how many bytes it
//!   has: the input, to the member. Its answer is what is noted, what is said to whom, and the job;
//!   or the number of the refusal and its cause.
//! - `deliver N K`: message N comes to the member.
//! - `say K SENDER PATH BODY ROUND MEMBER`: a message from this sender comes to the member, with
//!   the body `offer`, `promise`, `vote`, `nay` or `ask`, of this claim; or of another tree, where
//!   the body is `stranger`.
//! - `look` and an input: the step is prepared, and not taken.
//! - `twice` and an input: the member handles it, and then the same again.
//! - `held K PATH`, `facts K PATH`, `open K`, `counts K`: what the member knows.
//! - `restart K`: a new member restores what this one noted, and the letters of all packages are
//!   told.
//!
//! Where memory runs out in a step, that is counted, and the same input is given again.
mod asked;
mod in_turn;
mod known;
mod post;
mod restarting;
mod told;

use crate::heads::{tree, weights};
use crate::members::asked::answer_line;
use crate::members::post::{Post, enter_members};
use crate::text::Text;
use crate::words::first_word;

/// Answers the row.
pub fn answer(row: &[String], out: &mut Text) {
    match (tree(row, out), weights(row)) {
        (Some(tree), Some(weights)) => {
            let mut post = Post::new(out.alloc(), &tree, weights);
            answer_lines(&mut post, row, out);
            drop(post);
        }
        _ => out.lose(),
    }
}

fn answer_lines(post: &mut Post<'_>, row: &[String], out: &mut Text) {
    enter_members(&mut post.members, post.tree, &post.weights, out);
    for line in row {
        match first_word(line.as_str()).0 {
            "listing" => {}
            "members" => out.put(line.as_str()),
            _ => {
                out.put("\n");
                out.put(line.as_str());
                out.put(": ");
                answer_line(post, line.as_str(), out);
            }
        }
    }
}
