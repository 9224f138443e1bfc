//! The work folder, and each way in which those who write there may end.
#![tactic(auto)]

#[cfg(test)]
mod folders;
