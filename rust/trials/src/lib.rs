//! Inputs on which the proved library is tried: generated ones from fixed seeds, damaged ones, and named problems.

pub mod buffers;
pub mod checks;
pub mod constants;
pub mod damage;
pub mod dearest;
pub mod dimacs;
pub mod draft;
pub mod expected;
pub mod fixed;
pub mod models;
pub mod options;
pub mod pairs;
pub mod places;
pub mod problems;
pub mod random;
pub mod renumbering;
pub mod solver;
pub mod tally;
pub mod timing;
pub mod tptp;
pub mod truth;
pub mod walk;
