//! Tests of traces: examples, each fault, changed numbers, random runs, statistics and charts.

#[cfg(test)]
mod changes;
#[cfg(test)]
mod examples;
#[cfg(test)]
mod faults;
#[cfg(test)]
mod runs;
#[cfg(test)]
mod shows;
#[cfg(test)]
mod starts;
