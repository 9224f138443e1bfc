//! Known answers of lower crates: ballots, on values that a number tells apart and on builds; keys
//! and run files in a folder; texts under a key; and logs over disks that fail or crash.
#![tactic(auto)]

#[cfg(test)]
mod claimers;
#[cfg(test)]
mod copies;
#[cfg(test)]
mod crashed_logs;
#[cfg(test)]
mod failing_logs;
#[cfg(test)]
mod jobs;
#[cfg(test)]
mod keys;
#[cfg(test)]
mod logs;
#[cfg(test)]
mod said;
#[cfg(test)]
mod sealed_texts;
#[cfg(test)]
mod starts;
#[cfg(test)]
mod tallies;
#[cfg(test)]
mod voters;
