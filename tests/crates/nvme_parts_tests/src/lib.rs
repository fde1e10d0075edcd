//! Tests of entries, arbitration, rings and lanes, admin commands, queues anywhere, workers, workload files, reports and the rings of
//! a controller. Each test uses the public names of one crate.

#[cfg(test)]
mod admin;
#[cfg(test)]
mod arbiter;
#[cfg(test)]
mod audit;
#[cfg(test)]
mod calls;
#[cfg(test)]
mod ctrl;
#[cfg(test)]
mod device;
#[cfg(test)]
mod entry;
#[cfg(test)]
mod lane;
#[cfg(test)]
mod placing;
#[cfg(test)]
mod pool;
#[cfg(test)]
mod report;
#[cfg(test)]
mod workload;
