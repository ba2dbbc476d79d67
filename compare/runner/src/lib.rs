//! What the programs share: inputs, the comparisons, and a reading of document 01's nearest word and symbols.

pub mod address;
pub mod bodies;
pub mod code;
pub mod collection;
pub mod comparison;
pub mod fec;
pub mod frames;
pub mod header;
pub mod leaves;
pub mod lengths;
pub mod lich;
pub mod observe;
pub mod outside;
pub mod parse;
pub mod random;
pub mod receive;
pub mod runs;
pub mod slots;
pub mod stack;
pub mod symbols;
pub mod words;
pub mod write;
