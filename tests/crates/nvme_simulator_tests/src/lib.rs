//! Tests of the simulator's crates. Each module uses the public names of one of them.

#[cfg(test)]
mod bounds;
#[cfg(test)]
mod channels;
#[cfg(test)]
mod clock;
#[cfg(test)]
mod latency;
#[cfg(test)]
mod load;
#[cfg(test)]
mod model_file;
#[cfg(test)]
mod numbers;
#[cfg(test)]
mod occupancy;
#[cfg(test)]
mod plot;
#[cfg(test)]
mod replay;
#[cfg(test)]
mod simulate;
#[cfg(test)]
mod simulation;
#[cfg(test)]
mod sweep;
