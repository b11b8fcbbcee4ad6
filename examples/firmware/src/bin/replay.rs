//! A node on QEMU's Cortex-M4, over a board that plays what one node of a recorded log was told: each order has to be that of the log.
//!
//! It writes the lines of that node: `sent`, `tuned`, `deliver` and `drop`; and then a line `#` with what the node took. tests/firmware.py
//! writes the events, and compares the lines.
#![no_std]
#![no_main]
use core::fmt::Write;
use firmware::port::{Board, Happening, run};
use firmware::start::{self, Console};
use firmware::heap;
use foldcairn_node::tick_clock::{DriftClock, SegmentClock};
use foldcairn_node::{Act, Delivery, Event, Global, Node, NodeId, Packet, Payload, Profile, Rank};

// QEMU's loader puts the events there: how many bytes they have, and then these.
const EVENTS: *const u8 = 0x2020_0000 as *const u8;
// How far below the stack is looked at for what a call has overwritten.
const DEEP: usize = 24 * 1024;

/// Bytes that are read from the front.
#[derive(Clone, Copy)]
struct Bytes(&'static [u8]);

impl Bytes {
    fn take(&mut self, count: usize) -> &'static [u8] {
        let (front, rest) = self.0.split_at(count);
        self.0 = rest;
        front
    }
    fn byte(&mut self) -> u8 {
        self.take(1)[0]
    }
    fn long(&mut self) -> u64 {
        self.take(8).iter().rev().fold(0, |sum, byte| sum << 8 | u64::from(*byte))
    }
    fn piece(&mut self) -> &'static [u8] {
        let count = self.byte();
        self.take(count.into())
    }
}

/// A board whose radio and clock are software, and which is told what happens by recorded events.
struct Player<'a> {
    clock: &'a SegmentClock,
    profile: Profile,
    node: NodeId,
    events: Bytes,
    end: u64,
    // The true tick that it is; when what was ordered is due in true ticks; and on which channel it receives, and since when.
    tick: u64,
    boots: u8,
    is_on: bool,
    alarm: Option<u64>,
    ordered: Option<(u64, Packet)>,
    sending: Option<u64>,
    channel: Option<Rank>,
    tuned: Option<(Rank, u64)>,
    // Where nothing is written, what each kind of event takes: of instructions the most, by the system's timer.
    is_quiet: bool,
    began: u32,
    most: [u32; 4],
    count: u32,
}

impl Player<'_> {
    /// What happens at this tick by the events, if one is left that does.
    fn recorded(&mut self) -> Option<Happening> {
        let mut events = self.events;
        if events.0.is_empty() || events.long() != self.tick {
            return None;
        }
        let happening = match events.byte() {
            0 if self.is_on => Happening::Asked(Act::On),
            0 => {
                (self.is_on, self.boots) = (true, self.boots + 1);
                Happening::PowerOn(self.boots)
            }
            1 => {
                (self.is_on, self.alarm, self.ordered, self.channel) = (false, None, None, None);
                Happening::PowerOff
            }
            2 => Happening::Asked(Act::Declare(events.byte(), events.byte())),
            3 => Happening::Asked(Act::Leave(events.byte())),
            4 => Happening::Asked(Act::Put(events.byte(), Payload::new(events.piece()).unwrap())),
            _ => Happening::Received(Packet::new(events.piece()).unwrap()),
        };
        self.events = events;
        Some(happening)
    }

    /// The tick of the next thing that happens, of the events or of what was ordered.
    fn next(&self) -> Option<u64> {
        let mut events = self.events;
        let recorded = if events.0.is_empty() { None } else { Some(events.long()) };
        let ordered = self.ordered.as_ref().map(|order| order.0);
        [recorded, self.sending, self.alarm, ordered].into_iter().flatten().min().filter(|tick| *tick < self.end)
    }

    /// Writes the line of a time on a channel that has ended.
    fn retune(&mut self) {
        if self.channel == self.tuned.map(|tuned| tuned.0) {
            return;
        }
        if let Some((rank, start)) = self.tuned.filter(|tuned| tuned.1 < self.tick) {
            self.line(format_args!("tuned {} {} {start} {}", rank.number(), self.node.number(), self.tick), None);
        }
        self.tuned = self.channel.map(|rank| (rank, self.tick));
    }

    /// Begins the transmission that was ordered for this tick.
    fn transmit(&mut self) {
        let Some((_, packet)) = self.ordered.take_if(|order| order.0 == self.tick) else { return };
        if let (Some(rank), None) = (self.channel, self.sending) {
            let end = self.tick + self.profile.airtime(packet.length());
            self.sending = Some(end);
            self.line(format_args!("sent {} {} {} {end} ", rank.number(), self.node.number(), self.tick), Some(packet.bytes()));
        }
    }

    fn line(&self, line: core::fmt::Arguments<'_>, bytes: Option<&[u8]>) {
        if self.is_quiet {
            return;
        }
        // The console takes all.
        let _ = Console.write_fmt(line);
        if bytes == Some(&[]) {
            let _ = Console.write_str("-");
        }
        for byte in bytes.unwrap_or(&[]) {
            let _ = write!(Console, "{byte:02x}");
        }
        let _ = Console.write_str("\n");
    }
}

impl Board for Player<'_> {
    fn now(&self) -> u64 {
        self.clock.reading(self.tick)
    }
    fn listen(&mut self, rank: Rank) {
        self.channel = Some(rank);
    }
    fn off(&mut self) {
        self.channel = None;
    }
    fn send_at(&mut self, time: u64, packet: &Packet) {
        self.ordered = Some((self.clock.due(time).max(self.tick), packet.copy()));
    }
    fn alarm(&mut self, time: u64) {
        self.alarm = Some(self.clock.due(time).max(self.tick));
    }
    fn wait(&mut self) -> Happening {
        loop {
            if let Some(happening) = self.recorded() {
                return happening;
            }
            if self.sending == Some(self.tick) {
                self.sending = None;
                return Happening::Sent;
            }
            if self.alarm == Some(self.tick) {
                self.alarm = None;
                return Happening::Alarm;
            }
            self.retune();
            self.transmit();
            match self.next() {
                Some(tick) => self.tick = tick,
                None => {
                    (self.tick, self.channel) = (self.end, None);
                    self.retune();
                    return Happening::Nothing;
                }
            }
        }
    }
    fn deliver(&mut self, d: &Delivery) {
        let round = format_args!("deliver {} {} {} {} ", d.frame, d.rank.number(), d.slot, d.node.number());
        self.line(format_args!("{round}{} {} {} {} ", d.from.number(), d.boot, d.stream, d.seq), Some(d.payload.bytes()));
    }
    fn refuse(&mut self, act: &Act) {
        let frame = self.tick / self.profile.frame();
        self.line(format_args!("drop {frame} {} {}", self.node.number(), act.put_stream().unwrap_or(0)), None);
    }
    fn measure(&mut self, event: Option<&Event>) {
        let Some(event) = event else {
            self.began = timer();
            return;
        };
        let kind = match event {
            Event::Boot => 0,
            Event::Alarm => 1,
            Event::Heard(_) => 2,
            Event::Sent => 3,
        };
        // It counts down, in 24 bits.
        self.most[kind] = self.most[kind].max(self.began.wrapping_sub(timer()) & 0xff_ffff);
        self.count += 1;
    }
}

/// Starts the system's timer, which counts 25 MHz.
fn start_timer() {
    // SAFETY: these are its registers.
    unsafe {
        (0xe000_e014 as *mut u32).write_volatile(0xff_ffff);
        (0xe000_e010 as *mut u32).write_volatile(5);
    }
}

fn timer() -> u32 {
    // SAFETY: this is its register.
    unsafe { (0xe000_e018 as *const u32).read_volatile() }
}

/// How deep the stack of a call goes, by what it overwrites of a pattern.
#[inline(never)]
fn depth_of(call: &mut dyn FnMut()) -> usize {
    const PATTERN: u32 = 0xa5a5_a5a5;
    let here = 0u32;
    // What is near below belongs to this function.
    let top = (&raw const here as usize & !3) - 128;
    let words = DEEP / 4;
    let bottom = (top - DEEP) as *mut u32;
    // SAFETY: so much of the memory below is free, as nothing else runs.
    unsafe {
        (0..words).for_each(|word| bottom.add(word).write_volatile(PATTERN));
        call();
        let kept = (0..words).take_while(|word| bottom.add(*word).read_volatile() == PATTERN).count();
        DEEP - 4 * kept + 128
    }
}

#[unsafe(no_mangle)]
extern "C" fn program() {
    // SAFETY: QEMU's loader has put them there.
    let mut events = unsafe { Bytes(core::slice::from_raw_parts(EVENTS.add(4), EVENTS.cast::<u32>().read_volatile() as usize)) };
    let (contend, node, sends) = (events.byte(), NodeId::new(events.byte()).unwrap(), events.byte());
    let profile = match contend {
        255 => Profile::one(),
        0 => Profile::two(),
        slots => Profile::contended(slots),
    };
    let (offset, end) = (events.long(), events.long());
    let mut ranks = [node; 4];
    let hosts = events.piece();
    hosts.iter().zip(&mut ranks).for_each(|(host, rank)| *rank = NodeId::new(*host).unwrap());
    let mut rates = [(0, 0); 64];
    let count = usize::from(events.byte());
    rates[..count].iter_mut().for_each(|rate| *rate = (events.long(), events.byte() as i8));
    let clock = SegmentClock::new(Global, offset, &rates[..count]).unwrap();
    let before = heap::used();
    let mut core = Node::new(Global, &profile, node, &ranks[..hosts.len()], sends).unwrap();
    let heap_of_node = heap::used() - before;
    let mut player = Player {
        clock: &clock, profile, node, events, end, tick: 0, boots: 0, is_on: false, alarm: None, ordered: None, sending: None,
        channel: None, tuned: None, is_quiet: false, began: 0, most: [0; 4], count: 0,
    };
    run(&mut core, &mut player);
    // Once more, without a line: how deep the stack is, and how long an event takes.
    let mut again = Player { events, tick: 0, boots: 0, is_on: false, alarm: None, ordered: None, sending: None, tuned: None, is_quiet: true, most: [0; 4], count: 0, ..player };
    core.reboot(1);
    start_timer();
    let stack = depth_of(&mut || run(&mut core, &mut again));
    let later = heap::used() - before - heap_of_node;
    let (size, most) = (size_of::<Node>(), again.most.map(|ticks| 40 * ticks));
    let _ = writeln!(Console, "# node {size} heap {heap_of_node} later {later} stack {stack} events {} most {} {} {} {}", again.count, most[0], most[1], most[2], most[3]);
    start::exit(0);
}
