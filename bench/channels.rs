//! One user joins channels in which nobody else is, another asks for a list of them, and the first leaves all, written by
//! hand over Rust's std alone: a baseline of bench/programs/bench_lobby.
//!
//! The channels stand in a map by name, each with a list of its members' names and the numbers of their clients; beside
//! them each user has a set of the names of its channels. Each client has a buffer of its own.

use std::collections::{BTreeMap, BTreeSet, HashMap};
use std::io::Write;
use std::time::{Duration, Instant};

const EVENTS_A_ROUND: u64 = 100;

#[derive(Default)]
struct Lobby {
    channels: BTreeMap<String, Vec<(String, u64)>>,
    places: HashMap<String, BTreeSet<String>>,
    outboxes: [Vec<u8>; 2],
}

impl Lobby {
    fn join(&mut self, client: usize, user: &str, channel: String) {
        let members = self.channels.entry(channel.clone()).or_default();
        let line = &mut self.outboxes[client];
        let _ = write!(line, "JOIN {channel}\nCLIENTS {channel}");
        for (name, _) in members.iter() {
            let _ = write!(line, " {name}");
        }
        let _ = writeln!(line, " {user}");
        members.push((user.to_string(), client as u64));
        self.places.entry(user.to_string()).or_default().insert(channel);
    }

    fn list(&mut self, client: usize) {
        let line = &mut self.outboxes[client];
        for (channel, members) in &self.channels {
            let _ = writeln!(line, "CHANNEL {channel} {}", members.len());
        }
        line.extend_from_slice(b"ENDOFCHANNELS\n");
    }

    /// A user leaves all channels, and the others of each are told, and then the other client that it is gone.
    fn leave(&mut self, user: &str, other: usize) {
        for channel in self.places.remove(user).unwrap_or_default() {
            let Some(members) = self.channels.get_mut(&channel) else {
                continue;
            };
            members.retain(|(name, _)| name != user);
            for (_, client) in members.iter() {
                let _ = writeln!(self.outboxes[*client as usize], "LEFT {channel} {user}");
            }
            if members.is_empty() {
                self.channels.remove(&channel);
            }
        }
        let _ = writeln!(self.outboxes[other], "REMOVEUSER {user}");
    }

    fn read(&mut self, piece: &mut Vec<u8>) -> usize {
        let mut size = 0;
        for outbox in &mut self.outboxes {
            piece.clear();
            piece.extend_from_slice(outbox);
            size += piece.len();
            outbox.clear();
        }
        size
    }
}

fn main() {
    let sizes: Vec<u64> = std::env::args().skip(1).map(|word| word.parse().unwrap()).collect();
    let [channels, stride, lists] = sizes[..] else {
        panic!("usage: channels CHANNELS STRIDE LISTS")
    };
    let mut lobby = Lobby::default();
    let mut piece = Vec::new();
    let mut size = 0;
    let start = Instant::now();
    for place in 0..channels {
        lobby.join(0, "u0000", format!("c{:06}", place * stride % channels));
        if place % EVENTS_A_ROUND == 0 {
            size += lobby.read(&mut piece);
        }
    }
    size += lobby.read(&mut piece);
    report("joins", start.elapsed(), channels, size);
    for _ in 0..lists {
        let start = Instant::now();
        lobby.list(1);
        let taken = start.elapsed();
        report("lists", taken, channels, lobby.read(&mut piece));
    }
    let start = Instant::now();
    lobby.leave("u0000", 1);
    let taken = start.elapsed();
    report("leaves", taken, channels, lobby.read(&mut piece));
}

fn report(what: &str, taken: Duration, count: u64, size: usize) {
    let picoseconds = taken.as_nanos() * 1000;
    println!("{what}: {count}, {size} bytes");
    if count > 0 {
        println!("{} picoseconds each", picoseconds / u128::from(count));
    }
}
