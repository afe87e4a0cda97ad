//! The service inside another program: each connection has a stream of its own, which is fed whatever bytes have come for it, and closed when
//! its peer is done. Here two connections are played, with their pieces cut anywhere and in turns, and each answer is printed.

use weigher::{Answer, Stream};

struct Connection {
    name: &'static str,
    stream: Stream,
}

impl Connection {
    fn new(name: &'static str) -> Connection {
        let stream = Stream::new();
        Connection { name, stream }
    }

    fn on_data(&mut self, piece: &[u8]) {
        for answer in self.stream.feed(piece) {
            send(self.name, answer);
        }
    }

    fn on_end(&mut self) {
        if let Some(answer) = self.stream.close() {
            send(self.name, answer);
        }
    }
}

/// Where a server would write to the connection.
fn send(name: &str, answer: Answer) {
    print!("{name}:");
    for byte in answer.bytes() {
        print!(" {byte:02x}");
    }
    println!();
}

/// The weights -54 and 2, a frame each, a household of 2, 1 and the sum of both, and then a frame whose end does not come.
#[rustfmt::skip]
const FIRST: &[u8] = &[
    0, 10, 1, 1, 0xc0, 0x4b, 0, 0, 0, 0, 0, 0,
    0, 10, 1, 1, 0x40, 0, 0, 0, 0, 0, 0, 0,
    0, 29, 1, 5, 0, 0x40, 0, 0, 0, 0, 0, 0, 0, 0, 0x3f, 0xf0, 0, 0, 0, 0, 0, 0, 1, 0, 1, 0, 0, 0, 0, 0, 0,
    0, 10, 1, 1,
];

/// A body of no bytes, a kind that is not there, 2 × 3 + 1, and a report: one frame was accepted, and two refused.
#[rustfmt::skip]
const SECOND: &[u8] = &[
    0, 0,
    0, 2, 1, 0xff,
    0, 26, 1, 2, 0x40, 0, 0, 0, 0, 0, 0, 0, 0x40, 8, 0, 0, 0, 0, 0, 0, 0x3f, 0xf0, 0, 0, 0, 0, 0, 0,
    0, 2, 1, 4,
];

fn main() {
    let mut one = Connection::new("one");
    let mut two = Connection::new("two");
    one.on_data(&FIRST[..1]);
    two.on_data(&SECOND[..9]);
    one.on_data(&FIRST[1..16]);
    two.on_data(&SECOND[9..]);
    one.on_data(&FIRST[16..30]);
    two.on_end();
    one.on_data(&FIRST[30..]);
    one.on_end();
}
