//! Tests of tables of offers, of plans and plan files, of rounds, and of jobs over texts: values from outside, and each public
//! call once with ample memory.
#![tactic(auto)]

#[cfg(test)]
mod files;
#[cfg(test)]
mod jobs;
#[cfg(test)]
mod plans;
#[cfg(test)]
mod rounds;
#[cfg(test)]
mod tables;
#[cfg(test)]
mod texts;
