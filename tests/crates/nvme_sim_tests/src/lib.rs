//! Tests of runs and of the program: entries, inputs, the stored workloads, gates that hold workers, and refusals.

#[cfg(test)]
mod again;
#[cfg(test)]
mod commands;
#[cfg(test)]
mod entries;
#[cfg(test)]
mod examples;
#[cfg(test)]
mod fakes;
#[cfg(test)]
mod file_names;
#[cfg(test)]
mod gates;
#[cfg(test)]
mod input;
#[cfg(test)]
mod reports;
#[cfg(test)]
mod starvation;
#[cfg(test)]
mod streams;
#[cfg(test)]
mod tallies;
#[cfg(test)]
mod workloads;
