//! What a port of the node is made of: a board, the loop that joins it to the node, and the start of a Cortex-M.
#![no_std]

pub mod heap;
pub mod port;
pub mod start;
