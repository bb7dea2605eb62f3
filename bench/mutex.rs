//! Threads that each lock a lobby from time to time and have one client send `PING`, written by hand over Rust's std
//! alone: a baseline of bench/programs/bench_desk.
//!
//! `mutex alone PINGS` sends so many without a lock; `mutex holds THREADS HOLDS` has each of so many threads lock the one
//! `Mutex` so often. A hold looks its client up in an ordered map by number, appends the answer to its buffer and keeps
//! what it did in a list, which is cleared after it. Every 100 holds the client reads all.

use std::collections::BTreeMap;
use std::sync::Mutex;
use std::thread;
use std::time::Instant;

const HOLDS_A_ROUND: u64 = 100;

const GREETING: &[u8] = b"TASSERVER 0.38 * 8201 0\n";

#[derive(Default)]
struct Lobby {
    last_client: u64,
    clients: BTreeMap<u64, Vec<u8>>,
}

enum Request {
    Ping,
    Unknown,
}

impl Lobby {
    fn open(&mut self) -> u64 {
        self.last_client += 1;
        self.clients.insert(self.last_client, GREETING.to_vec());
        self.last_client
    }

    fn say(&mut self, client: u64, request: &Request) {
        if let Some(outbox) = self.clients.get_mut(&client) {
            outbox.extend_from_slice(match request {
                Request::Ping => b"PONG\n",
                Request::Unknown => b"SERVERMSG Unknown command\n",
            });
        }
    }

    fn drain(&mut self, client: u64, into: &mut [u8]) -> usize {
        let Some(outbox) = self.clients.get_mut(&client) else {
            return 0;
        };
        let count = outbox.len().min(into.len());
        into[..count].copy_from_slice(&outbox[..count]);
        outbox.drain(..count);
        count
    }
}

fn read(line: &[u8]) -> Request {
    match line {
        b"PING" => Request::Ping,
        _ => Request::Unknown,
    }
}

fn is_read_after(turn: u64, turns: u64) -> bool {
    turn % HOLDS_A_ROUND == HOLDS_A_ROUND - 1 || turn == turns - 1
}

fn ping_alone(lobby: &mut Lobby, pings: u64, line: &[u8]) -> usize {
    let mut piece = vec![0; 1 << 20];
    let client = lobby.open();
    let mut size = 0;
    for turn in 0..pings {
        lobby.say(client, &read(line));
        if is_read_after(turn, pings) {
            size += lobby.drain(client, &mut piece);
        }
    }
    size
}

fn ping_held(desk: &Mutex<Lobby>, holds: u64, line: &[u8]) -> usize {
    let mut piece = vec![0; 1 << 20];
    let mut events = Vec::with_capacity(32);
    let client = desk.lock().unwrap().open();
    let mut size = 0;
    for turn in 0..holds {
        let request = read(line);
        let mut lobby = desk.lock().unwrap();
        lobby.say(client, &request);
        events.push((client, Some(request)));
        if is_read_after(turn, holds) {
            size += lobby.drain(client, &mut piece);
            events.push((client, None));
        }
        drop(lobby);
        std::hint::black_box(&events);
        events.clear();
    }
    size
}

fn report(what: &str, start: Instant, count: u64, size: usize) {
    let picoseconds = start.elapsed().as_nanos() * 1000;
    println!("{what}: {count}, {size} bytes");
    println!("{} picoseconds each", picoseconds / u128::from(count.max(1)));
}

fn main() {
    let words: Vec<String> = std::env::args().skip(1).collect();
    let sizes: Vec<u64> = words[1..].iter().map(|word| word.parse().unwrap()).collect();
    let line = std::hint::black_box(&b"PING"[..]);
    let start = Instant::now();
    if words[0] == "alone" {
        let size = ping_alone(&mut Lobby::default(), sizes[0], line);
        report("alone", start, sizes[0], size);
        return;
    }
    let desk = Mutex::new(Lobby::default());
    let size = thread::scope(|scope| {
        let threads: Vec<_> = (0..sizes[0]).map(|_| scope.spawn(|| ping_held(&desk, sizes[1], line))).collect();
        threads.into_iter().map(|it| it.join().unwrap()).sum()
    });
    report("holds", start, sizes[0] * sizes[1], size);
}
