//! The way out to a neighbour: a queue of what to send, bounded, that any thread may add to and one thread empties.

use crate::wire::{have, Part};
use std::collections::{BTreeMap, VecDeque};
use std::net::{Shutdown, SocketAddr, TcpStream};
use std::sync::atomic::{AtomicBool, AtomicU64, Ordering::Relaxed};
use std::sync::{Arc, Condvar, Mutex};
use std::time::{Duration, Instant};

/// What is to be sent. Blocks and hashes are named only, and read when they are sent: a queue of them takes no memory to speak of.
#[derive(Clone, Debug, PartialEq, Eq)]
pub enum Out {
    Message(Vec<u8>),
    Block(Part),
    Hashes(Vec<u8>),
    KeepAlive,
}

/// Requests of a neighbour that wait for their answers; one more ends the connection.
pub const MOST_ASKED: usize = 64;
/// Messages of our own that wait: a neighbour that takes so few is no use.
const MOST_OWN: usize = 4096;

/// What a neighbour has done, over all its connections.
#[derive(Default)]
pub struct Tally {
    pub taken: AtomicU64,
    pub served: AtomicU64,
    pub hashes_served: AtomicU64,
    pub connections: AtomicU64,
    /// How often each number was the answer.
    pub refusals: Mutex<BTreeMap<u32, u64>>,
    pub last: Mutex<String>,
}

impl Tally {
    pub fn refused(&self, number: u32) {
        *self.refusals.lock().unwrap().entry(number).or_default() += 1;
    }
}

pub struct Line {
    pub id: u64,
    pub address: SocketAddr,
    pub tally: Arc<Tally>,
    link: TcpStream,
    queue: Mutex<Queue>,
    wake: Condvar,
    closed: AtomicBool,
}

#[derive(Default)]
struct Queue {
    out: VecDeque<Out>,
    /// How many of them the neighbour asked for.
    asked: usize,
    why: Option<&'static str>,
}

impl Line {
    pub fn new(id: u64, address: SocketAddr, link: TcpStream, tally: Arc<Tally>) -> Line {
        Line { id, address, tally, link, queue: Mutex::default(), wake: Condvar::new(), closed: AtomicBool::new(false) }
    }

    pub fn link(&self) -> &TcpStream {
        &self.link
    }

    pub fn send(&self, message: Vec<u8>) {
        let mut queue = self.queue.lock().unwrap();
        if queue.out.len() - queue.asked >= MOST_OWN {
            drop(queue);
            return self.close("too slow to send to");
        }
        queue.out.push_back(Out::Message(message));
        self.wake.notify_one();
    }

    /// Before all that waits: a bitfield is a connection's first message.
    pub fn send_first(&self, message: Vec<u8>) {
        self.queue.lock().unwrap().out.push_front(Out::Message(message));
    }

    pub fn send_have(&self, piece: u64) {
        self.send(have(piece as u32));
    }

    /// An answer that the neighbour asked for; false if too many wait.
    pub fn answer(&self, out: Out) -> bool {
        let mut queue = self.queue.lock().unwrap();
        if queue.asked >= MOST_ASKED {
            return false;
        }
        queue.asked += 1;
        queue.out.push_back(out);
        self.wake.notify_one();
        true
    }

    /// A request that was withdrawn; false if it does not wait.
    pub fn withdraw(&self, part: Part) -> bool {
        let mut queue = self.queue.lock().unwrap();
        let place = queue.out.iter().position(|out| *out == Out::Block(part));
        if let Some(place) = place {
            queue.out.remove(place);
            queue.asked -= 1;
        }
        place.is_some()
    }

    /// The next to be sent; a keep-alive if there was nothing for so long; none once the line is closed.
    pub fn next(&self, idle: Duration) -> Option<Out> {
        let until = Instant::now() + idle;
        let mut queue = self.queue.lock().unwrap();
        loop {
            if self.is_closed() {
                return None;
            }
            if let Some(out) = queue.out.pop_front() {
                if !matches!(out, Out::Message(_)) {
                    queue.asked -= 1;
                }
                return Some(out);
            }
            let left = until.saturating_duration_since(Instant::now());
            if left.is_zero() {
                return Some(Out::KeepAlive);
            }
            queue = self.wake.wait_timeout(queue, left).unwrap().0;
        }
    }

    pub fn is_closed(&self) -> bool {
        self.closed.load(Relaxed)
    }

    /// Ends both threads of the connection. The first reason counts.
    pub fn close(&self, why: &'static str) {
        self.queue.lock().unwrap().why.get_or_insert(why);
        self.closed.store(true, Relaxed);
        let _ = self.link.shutdown(Shutdown::Both);
        self.wake.notify_all();
    }

    /// Why it was closed from this side, if it was.
    pub fn why(&self) -> Option<&'static str> {
        self.queue.lock().unwrap().why
    }
}

#[cfg(test)]
mod tests {
    use super::*;
    use std::net::TcpListener;

    fn line() -> Line {
        let listener = TcpListener::bind("127.0.0.1:0").unwrap();
        let address = listener.local_addr().unwrap();
        Line::new(1, address, TcpStream::connect(address).unwrap(), Arc::default())
    }

    fn part(piece: u32) -> Part {
        Part { piece, begin: 0, size: 16384 }
    }

    #[test]
    fn the_65th_request_is_one_too_many() {
        let line = line();
        assert!((0..64).all(|piece| line.answer(Out::Block(part(piece)))));
        assert!(!line.answer(Out::Block(part(64))));
        assert!(line.withdraw(part(3)) && !line.withdraw(part(3)));
        assert!(line.answer(Out::Hashes(vec![21; 49])));
        assert_eq!(line.next(Duration::ZERO), Some(Out::Block(part(0))));
        assert!(line.answer(Out::Block(part(64))));
    }

    #[test]
    fn a_neighbour_that_takes_nothing_is_closed() {
        let line = line();
        for piece in 0..=MOST_OWN as u64 {
            assert!(!line.is_closed());
            line.send_have(piece);
        }
        assert_eq!(line.why(), Some("too slow to send to"));
        assert_eq!(line.next(Duration::ZERO), None);
    }

    #[test]
    fn silence_of_ours_is_broken() {
        assert_eq!(line().next(Duration::from_millis(1)), Some(Out::KeepAlive));
    }
}
