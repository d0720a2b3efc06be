//! Tests of the store, of files of events, of connections, and of what mirrors relays: values from outside, threads beside one another, and each
//! public call once with ample memory.
#![tactic(auto)]

#[cfg(test)]
mod boards;
#[cfg(test)]
mod conns;
#[cfg(test)]
mod events;
#[cfg(test)]
mod fetches;
#[cfg(test)]
mod files;
#[cfg(test)]
mod links;
#[cfg(test)]
mod logs;
#[cfg(test)]
mod nexts;
#[cfg(test)]
mod rounds;
#[cfg(test)]
mod stores;
#[cfg(test)]
mod talks;
#[cfg(test)]
mod wires;
