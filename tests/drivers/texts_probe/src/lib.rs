//! Answers lines of standard input, whose texts are in hexadecimal, a blank before each:
//!     status LISTING HELD     what `dpbr status` prints of these texts; or the number of the
//!                             refusal, and its place
//!     audit LISTING LIST      the same of `dpbr audit`
//!     run LISTING TRACE       the same of `dpbr run`
//!     trace LISTING TRACE     the same, where the tree was read before
//!     copies LISTING LIST     the verdict on copies of the list's entries
//!     list BUILD              the list of the packages of a build
#![tactic(auto)]

mod answers;
mod packages;
mod trees;

pub use crate::answers::answer;
