//! Builds that come again as texts, joined with a build that is known and without one.
#![tactic(auto)]

#[cfg(test)]
mod joining;
#[cfg(test)]
mod made;
#[cfg(test)]
mod other_builds;
#[cfg(test)]
mod short_texts;
#[cfg(test)]
mod wrong_texts;
