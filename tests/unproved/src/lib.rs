//! Tests that are compiled and run, and not proved: rows of calls, of the words of a command line, and of the one-thread
//! unit's turns. What they call is proved; that its conditions hold where they call it is not.

#[cfg(test)]
mod asked;
#[cfg(test)]
mod assembled;
#[cfg(test)]
mod choices;
#[cfg(test)]
mod command_lines;
#[cfg(test)]
mod examples;
#[cfg(test)]
mod layouts;
#[cfg(test)]
mod lines;
#[cfg(test)]
mod listings;
#[cfg(test)]
mod loads;
#[cfg(test)]
mod making;
#[cfg(test)]
mod models;
#[cfg(test)]
mod one_station;
#[cfg(test)]
mod operations;
#[cfg(test)]
mod policies;
#[cfg(test)]
mod programs;
#[cfg(test)]
mod reports;
#[cfg(test)]
mod threads;
#[cfg(test)]
mod turns;
#[cfg(test)]
mod two_stations;
