//! Connections made and taken: one thread dials each neighbour, one listens.

use crate::gate::Gate;
use crate::peer;
use crate::say;
use crate::torrent::Torrent;
use kombudeva::Hash;
use socket2::{Domain, Protocol, Socket, Type};
use std::collections::BTreeMap;
use std::io::Result;
use std::net::{SocketAddr, TcpListener, TcpStream};
use std::sync::Arc;
use std::thread;
use std::time::{Duration, Instant};

/// The stack of a connection's threads: calls on a store need 48 kB.
pub const STACK: usize = 512 << 10;
const DIAL_TIME: Duration = Duration::from_secs(5);
const SOONEST: Duration = Duration::from_secs(1);
const LATEST: Duration = Duration::from_secs(300);
/// Between two calls about a torrent that is whole here.
const WHOLE: Duration = Duration::from_secs(60);

/// Takes connections for ever. Who is banned or has too many is closed at once.
pub fn listen(gate: &Arc<Gate>, listener: &TcpListener) {
    loop {
        let Ok((link, address)) = listener.accept() else {
            // Out of files, perhaps: others will be closed.
            thread::sleep(Duration::from_millis(100));
            continue;
        };
        if gate.is_banned(address.ip()) {
            continue;
        }
        let Some(seat) = gate.seat(address.ip()) else {
            say!("full", neighbour = address);
            continue;
        };
        let gate = gate.clone();
        let serve = move || {
            peer::inbound(&gate, link, address);
            drop(seat);
        };
        if thread::Builder::new().stack_size(STACK).spawn(serve).is_err() {
            say!("no_thread", neighbour = address);
        }
    }
}

/// When a neighbour is asked again about a torrent.
struct Again {
    at: Instant,
    wait: Duration,
    /// Whether it was whole here then: one that lost a block since is asked about at once.
    whole: bool,
}

/// Keeps a connection to a neighbour for each torrent, as far as there is room, and comes back after longer and longer waits.
pub fn dial(gate: &Arc<Gate>, neighbour: SocketAddr) {
    let mut again: BTreeMap<Hash, Again> = BTreeMap::new();
    loop {
        thread::sleep(Duration::from_millis(500));
        if gate.is_banned(neighbour.ip()) {
            continue;
        }
        let torrents = gate.torrents();
        again.retain(|info_hash, _| torrents.iter().any(|torrent| torrent.info_hash == *info_hash));
        // Those that lack something first.
        let (whole, parts): (Vec<_>, Vec<_>) = torrents.into_iter().partition(|torrent| torrent.is_whole());
        let all =
            parts.into_iter().map(|torrent| (torrent, false)).chain(whole.into_iter().map(|torrent| (torrent, true)));
        for (torrent, whole) in all {
            let now = Instant::now();
            let before = again.get(&torrent.info_hash);
            let due = before.is_none_or(|again| again.at <= now || again.whole && !whole);
            if due && !is_connected(&torrent, neighbour) {
                let wait = before.map_or(SOONEST / 2, |again| again.wait);
                let wait =
                    if dial_once(gate, neighbour, &torrent) { SOONEST } else { (wait * 2).clamp(SOONEST, LATEST) };
                let at = Instant::now() + if whole { wait.max(WHOLE) } else { wait };
                again.insert(torrent.info_hash, Again { at, wait, whole });
            }
        }
    }
}

fn is_connected(torrent: &Torrent, neighbour: SocketAddr) -> bool {
    torrent.lines().iter().any(|line| line.address.ip() == neighbour.ip() && !line.is_closed())
}

/// Connects, shakes hands, and leaves the connection to threads of its own; whether it came so far.
fn dial_once(gate: &Arc<Gate>, neighbour: SocketAddr, torrent: &Arc<Torrent>) -> bool {
    let Some(seat) = gate.seat(neighbour.ip()) else { return false };
    let link = match connect(gate.config.listen, neighbour) {
        Ok(link) => link,
        Err(error) => {
            *gate.tally(neighbour.ip()).last.lock().unwrap() = error.to_string();
            return false;
        }
    };
    let Some(ready) = peer::outbound(gate, link, neighbour, torrent) else { return false };
    let run = move || {
        ready.run();
        drop(seat);
    };
    thread::Builder::new().stack_size(STACK).spawn(run).is_ok()
}

/// From the address that this gateway listens on, so that neighbours know it by that.
pub fn connect(from: SocketAddr, to: SocketAddr) -> Result<TcpStream> {
    let socket = Socket::new(Domain::for_address(to), Type::STREAM, Some(Protocol::TCP))?;
    if !from.ip().is_unspecified() && from.is_ipv4() == to.is_ipv4() {
        socket.bind(&SocketAddr::new(from.ip(), 0).into())?;
    }
    socket.connect_timeout(&to.into(), DIAL_TIME)?;
    Ok(socket.into())
}
