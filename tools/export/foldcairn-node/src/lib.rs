//! The core of one node of Foldcairn's bus: it gets events, and gives orders to a radio and an alarm. README.md says what a port has to do.
//!
//! The modules are crates of Foldcairn as they were exported: their sources are proved, and this form of them is tested. What a port
//! needs is named here; the contracts are in the documentation of each function.
#![no_std]
#![forbid(unsafe_code)]
#![allow(dead_code, unused_imports, unused_variables)]
extern crate rattle_std as std;

pub use bus_rules::{Act, Delivery, Tune};
pub use lwb_base::{Event, LocalClock, MOST_BOOTS, Memory, NodeId, Packet, Payload, Profile, Radio, Rank};
pub use node_core::{Node, Place};
pub use rattle_std::alloc::Global;
pub use node_streams::Put;

