//! Turns of clusters in memory.
#![tactic(auto)]

#[cfg(test)]
mod builds;
#[cfg(test)]
mod clusters;
#[cfg(test)]
mod down;
#[cfg(test)]
mod nine;
#[cfg(test)]
mod overtaken;
#[cfg(test)]
mod pieces;
#[cfg(test)]
mod port;
#[cfg(test)]
mod rows;
#[cfg(test)]
mod weighing;
