//! All tests of the reference.

mod any_bytes;
mod comparison;
mod cut;
mod demand_three;
mod demand_two;
mod example;
mod grey;
mod helpers;
mod joined;
mod lifting;
mod literal;
mod netpbm;
mod numbers;
mod piped;
mod portal;
mod printed;
mod program;
mod refusals_of_coding;
mod refusals_of_reading;
mod served_again;
mod shapes;
mod to_be_run;
mod waterfall;
mod wrong_builds;
mod wrong_pictures;
