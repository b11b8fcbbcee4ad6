//! The port: what a board has to do for a node, and the loop that joins both.
use foldcairn_node::{Act, Delivery, Event, LocalClock, Node, Packet, Radio, Rank};

/// What happens at a board.
pub enum Happening {
    /// Power came on, or the processor was reset. The boot number is one more than that of the last time, which is kept in flash.
    PowerOn(u8),
    /// Power went off. A board that loses its power says nothing.
    PowerOff,
    /// The alarm is due.
    Alarm,
    /// The reception of this packet ended: the board has captured the time, and `now` gives it until the next `wait`.
    Received(Packet),
    /// The transmission ended.
    Sent,
    /// The application asks for something: a stream, or a packet to send.
    Asked(Act),
    /// Nothing more happens. Only a board that plays a log says so.
    Nothing,
}

/// What a board does. Times are ticks of 1/64 µs of its own clock, which never goes back and has no leap.
pub trait Board {
    /// The time of what happened last: below 2^46, which is 12 days.
    fn now(&self) -> u64;
    /// Receives on the channel of a rank, 0 to 3, from now on.
    fn listen(&mut self, rank: Rank);
    /// Ends receiving. A transmission that is on the air goes on.
    fn off(&mut self);
    /// Begins to transmit at that time, or at once if it has passed, in place of what has not begun. If the radio receives on no channel then,
    /// or transmits, nothing is sent.
    fn send_at(&mut self, time: u64, packet: &Packet);
    /// Sets the one alarm.
    fn alarm(&mut self, time: u64);
    /// Waits for what happens next. At one tick that is, in this order: what the application asks, receptions, the end of a transmission,
    /// the alarm.
    fn wait(&mut self) -> Happening;
    /// The application gets a packet.
    fn deliver(&mut self, delivery: &Delivery);
    /// The application's packet was not taken.
    fn refuse(&mut self, act: &Act);
    /// Called before and after each event, to measure it.
    fn measure(&mut self, _: Option<&Event>) {}
}

struct Clock(u64);

impl LocalClock for Clock {
    fn now(&self) -> u64 {
        self.0
    }
}

struct Orders<'a, B>(&'a mut B);

impl<B: Board> Radio for Orders<'_, B> {
    fn listen(&mut self, rank: Rank) {
        self.0.listen(rank);
    }
    fn off(&mut self) {
        self.0.off();
    }
    fn send_at(&mut self, local: u64, packet: &Packet) {
        self.0.send_at(local, packet);
    }
    fn alarm(&mut self, local: u64) {
        self.0.alarm(local);
    }
}

/// Runs a node on a board for as long as something happens.
pub fn run<B: Board>(node: &mut Node, board: &mut B) {
    let mut is_on = false;
    loop {
        let event = match board.wait() {
            Happening::Nothing => return,
            Happening::PowerOff => {
                is_on = false;
                continue;
            }
            Happening::Asked(act) => {
                let is_refused = if is_on { node.tell(&act) } else { act.put_stream().is_some() };
                if is_refused {
                    board.refuse(&act);
                }
                continue;
            }
            Happening::PowerOn(boot) => {
                node.reboot(boot);
                is_on = true;
                Event::Boot
            }
            Happening::Alarm => Event::Alarm,
            Happening::Received(packet) => Event::Heard(packet),
            Happening::Sent => Event::Sent,
        };
        if is_on {
            step(node, board, &event);
        }
    }
}

fn step<B: Board>(node: &mut Node, board: &mut B, event: &Event) {
    board.measure(None);
    node.handle(&Clock(board.now()), &mut Orders(board), event);
    board.measure(Some(event));
    if let Some(delivery) = node.delivered() {
        board.deliver(&delivery);
    }
}
