//! A node over UDP whose turns are a run of hosts, one after the other.
#![tactic(auto)]

#[cfg(test)]
mod heard;
