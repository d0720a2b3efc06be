//! Tests of the protocol's crates, from numbers to whole sessions: values from outside, and each public call once with ample
//! memory.
#![tactic(auto)]

#[cfg(test)]
mod answers;
#[cfg(test)]
mod asks;
#[cfg(test)]
mod drafts;
#[cfg(test)]
mod fixtures;
#[cfg(test)]
mod messages;
#[cfg(test)]
mod numbers;
#[cfg(test)]
mod prints;
#[cfg(test)]
mod rolls;
#[cfg(test)]
mod sessions;
