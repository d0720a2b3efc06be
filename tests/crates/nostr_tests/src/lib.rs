//! Tests of ids and maps of them, events, filters, messages, orders of events and settings: values from outside, and each public
//! call once with ample memory.
#![tactic(auto)]

#[cfg(test)]
mod digits;
#[cfg(test)]
mod events;
#[cfg(test)]
mod filters;
#[cfg(test)]
mod maps;
#[cfg(test)]
mod messages;
#[cfg(test)]
mod orders;
#[cfg(test)]
mod settings;
