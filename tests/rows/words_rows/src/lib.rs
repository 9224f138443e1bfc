//! Words of `dpbn`, and which call they make.
#![tactic(auto)]

#[cfg(test)]
mod arguments;
