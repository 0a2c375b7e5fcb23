//! The program as a person runs it: one binary of tests, as each would be linked anew.

mod damage;
mod errors;
mod gaps;
mod help;
mod import;
mod outputs;
mod picture;
mod same_bytes;
mod support;
mod tshark;
