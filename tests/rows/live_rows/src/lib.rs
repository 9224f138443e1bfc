//! Turns of a lone node whose builds are made while it runs, and what its desk wishes.
#![tactic(auto)]

#[cfg(test)]
mod alone;
#[cfg(test)]
mod desks;
#[cfg(test)]
mod lone;
#[cfg(test)]
mod together;
