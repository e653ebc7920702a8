//! A plain model of the guessing RV32I pipeline: the same clocks as the proved one, written for speed and proved nowhere.
pub mod isa;
pub mod memory;
pub mod options;
pub mod pipeline;
pub mod predictor;
pub mod report;
