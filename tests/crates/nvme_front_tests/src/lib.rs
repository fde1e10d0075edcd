//! Tests of a front with its hosts and workers: worked examples, refusals, long drives, hosts that submit arbitrary
//! bytes, and refused memory.

#[cfg(test)]
mod again;
#[cfg(test)]
mod arbitrary;
#[cfg(test)]
mod commands;
#[cfg(test)]
mod device;
#[cfg(test)]
mod drive;
#[cfg(test)]
mod drives;
#[cfg(test)]
mod events;
#[cfg(test)]
mod examples;
#[cfg(test)]
mod hosted;
#[cfg(test)]
mod refusals;
#[cfg(test)]
mod rig;
#[cfg(test)]
mod starvation;
#[cfg(test)]
mod threads;
#[cfg(test)]
mod windows;
#[cfg(test)]
mod workers;
