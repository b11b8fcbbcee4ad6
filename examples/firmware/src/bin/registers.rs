//! A port over made-up registers, which runs nowhere: its size is what a node takes beside the drivers of a real board.
#![no_std]
#![no_main]
use firmware::port::{Board, Happening, run};
use firmware::start;
use foldcairn_node::{Act, Delivery, Global, Node, NodeId, Packet, Profile, Rank};

struct Registers;

fn write(at: usize, value: u32) {
    // SAFETY: these registers are made up.
    unsafe { (0x4000_0000 as *mut u32).add(at).write_volatile(value) }
}

fn read(at: usize) -> u32 {
    // SAFETY: these registers are made up.
    unsafe { (0x4000_0000 as *const u32).add(at).read_volatile() }
}

fn write_time(at: usize, time: u64) {
    write(at, time as u32);
    write(at + 1, (time >> 32) as u32);
}

impl Board for Registers {
    fn now(&self) -> u64 {
        u64::from(read(0)) | u64::from(read(1)) << 32
    }
    fn listen(&mut self, rank: Rank) {
        write(2, u32::from(rank.number()) + 1);
    }
    fn off(&mut self) {
        write(2, 0);
    }
    fn send_at(&mut self, time: u64, packet: &Packet) {
        packet.bytes().iter().for_each(|byte| write(5, u32::from(*byte)));
        write_time(3, time);
    }
    fn alarm(&mut self, time: u64) {
        write_time(6, time);
    }
    fn wait(&mut self) -> Happening {
        loop {
            match read(8) {
                1 => return Happening::PowerOn(read(9) as u8),
                2 => return Happening::Alarm,
                3 => return Happening::Sent,
                4 => {
                    let mut bytes = [0; 125];
                    let length = (read(9) as usize).min(bytes.len());
                    bytes[..length].iter_mut().for_each(|byte| *byte = read(5) as u8);
                    if let Some(packet) = Packet::new(&bytes[..length]) {
                        return Happening::Received(packet);
                    }
                }
                5 => return Happening::Asked(Act::Declare(0, 10)),
                _ => {}
            }
        }
    }
    fn deliver(&mut self, delivery: &Delivery) {
        delivery.payload.bytes().iter().for_each(|byte| write(10, u32::from(*byte)));
    }
    fn refuse(&mut self, _: &Act) {
        write(11, 1);
    }
}

#[unsafe(no_mangle)]
extern "C" fn program() {
    let Some(host) = NodeId::new(1) else { start::exit(1) };
    let Ok(mut node) = Node::new(Global, &Profile::two(), host, &[host], 3) else { start::exit(5) };
    run(&mut node, &mut Registers);
}
