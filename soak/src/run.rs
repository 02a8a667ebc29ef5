//! A run: the desk, its eight controllers, and one that resets the rack now and then.

use crate::checked::Checked;
use crate::controller::Controller;
use crate::process::Holding;
use crate::report::Report;
use crate::shared::Shared;
use demo::clock::Clock;
use demo::desk::Desk;
use demo::message::Arm;
use demo::restart::Restart;
use std::io;
use std::net::{Ipv4Addr, SocketAddr, SocketAddrV4, TcpListener, UdpSocket};
use std::sync::Arc;
use std::sync::atomic::{AtomicBool, Ordering};
use std::thread::{self, JoinHandle};
use std::time::{Duration, Instant};

/// How often the process is looked at.
const LOOK: Duration = Duration::from_millis(100);
/// How often the rack is reset.
const RESET: Duration = Duration::from_secs(3);
/// The clock's first reading: it goes round after so many milliseconds.
const ROUND: u32 = 2_000;

/// A run ends with the first of these.
#[derive(Clone, Copy, Debug)]
pub struct Limits {
    pub time: Duration,
    pub calls: u64,
}

pub fn run(limits: Limits, seed: u64) -> io::Result<Report> {
    let before = Holding::now()?;
    let shared = Arc::new(Shared::default());
    let listener = TcpListener::bind((Ipv4Addr::LOCALHOST, 0))?;
    let address = listener.local_addr()?;
    let arm = arm()?;
    let start = Instant::now();
    let ended = Arc::new(AtomicBool::new(false));
    let desk = desk(listener, shared.clone(), ended.clone());
    let controllers = controllers(address, &arm, seed, &shared);
    let (early, most) = attend(&shared, limits, start, &arm)?;
    shared.stop();
    let joined = controllers.into_iter().map(JoinHandle::join);
    let joined = joined.fold(Ok(()), Result::and);
    let time = start.elapsed();
    let late = Holding::now()?;
    ended.store(true, Ordering::Relaxed);
    let joined = joined.and(desk.join());
    joined.map_err(|_| io::Error::other("a thread panicked"))?;
    Ok(Report {
        time,
        calls: shared.calls(),
        counts: shared.counts(),
        failure: shared.failure(),
        before,
        early,
        most,
        late,
        after: Holding::now()?,
    })
}

/// A key, and a port that is free now.
fn arm() -> io::Result<Arm> {
    let socket = UdpSocket::bind((Ipv4Addr::LOCALHOST, 0))?;
    Ok(Arm {
        key: *b"a key for a soak",
        port: socket.local_addr()?.port(),
        address: String::new(),
    })
}

fn desk(listener: TcpListener, shared: Arc<Shared>, ended: Arc<AtomicBool>) -> JoinHandle<()> {
    thread::spawn(move || {
        let clock = Clock::starting_at(0_u32.wrapping_sub(ROUND));
        let checked = Checked::new(shared.clone());
        let desk = Desk::watched(listener, clock, io::sink(), checked);
        if let Err(error) = desk.and_then(|desk| desk.run(&ended)) {
            shared.fail(format!("the desk ended: {error}"));
        }
    })
}

/// Four that each have a channel of their own, and four that contend for the other four.
fn controllers(
    address: SocketAddr,
    arm: &Arm,
    seed: u64,
    shared: &Arc<Shared>,
) -> Vec<JoinHandle<()>> {
    (0..8)
        .map(|place: u8| {
            let own = (place < 4).then_some(place + 1);
            let seed = seed.wrapping_mul(8).wrapping_add(place.into());
            let controller = Controller::new(address, own, seed, shared.clone());
            let controller = match place {
                7 => controller.arming(arm.clone()),
                _ => controller,
            };
            thread::spawn(move || controller.run())
        })
        .collect()
}

/// Looks at the process and resets the rack until the run has to end: what it held early, and the most that it held.
fn attend(
    shared: &Shared,
    limits: Limits,
    start: Instant,
    arm: &Arm,
) -> io::Result<(Holding, Holding)> {
    let (mut early, mut most) = (Holding::default(), Holding::default());
    let mut reset = start;
    while start.elapsed() < limits.time && shared.calls() < limits.calls && !shared.stopped() {
        thread::sleep(LOOK);
        most = most.most(Holding::now()?);
        if start.elapsed() < limits.time / 3 {
            early = most;
        }
        if reset.elapsed() >= RESET {
            reset = Instant::now();
            shared.resetting();
            let to = SocketAddrV4::new(Ipv4Addr::LOCALHOST, arm.port);
            // nobody may be listening yet
            let _ = Restart { key: arm.key, to }.send();
        }
    }
    Ok((early, most))
}
