//! Command lines, and the predictors that they ask for.

mod by_hand;
mod checks;
mod options;
mod predictors;
mod seeds;
