//! Tells users of changed statuses, and the members of a channel what one of them says, written by hand over Rust's std
//! alone: a baseline of bench/programs/bench_lobby.
//!
//! Each client has a buffer of its own in a map by number, and each user a status in a map by name. An event looks its
//! user up, formats one line and appends it to the buffer of each user, in the order of the clients, or of each member of
//! the channel, in the order of joining. Every 100 events all who are told read all.

use std::collections::{BTreeMap, BTreeSet};
use std::io::Write;
use std::time::Instant;

const EVENTS_A_ROUND: u64 = 100;
const STRIDE: u64 = 7_919;

#[derive(Default)]
struct Client {
    name: Option<String>,
    outbox: Vec<u8>,
}

#[derive(Default)]
struct Lobby {
    clients: BTreeMap<u64, Client>,
    users: BTreeMap<String, u32>,
    // the clients of the users
    listed: BTreeSet<u64>,
    // the clients of the channel's members
    members: Vec<u64>,
    line: Vec<u8>,
}

impl Lobby {
    fn set_status(&mut self, client: u64, status: u32) {
        let Some(name) = self.clients.get(&client).and_then(|client| client.name.as_ref()) else {
            return;
        };
        let Some(kept) = self.users.get_mut(name) else {
            return;
        };
        *kept = status;
        self.line.clear();
        let _ = writeln!(self.line, "CLIENTSTATUS {name} {kept}");
        for number in &self.listed {
            if let Some(client) = self.clients.get_mut(number) {
                client.outbox.extend_from_slice(&self.line);
            }
        }
    }

    fn say(&mut self, client: u64, word: &str, text: &str) {
        let Some(name) = self.clients.get(&client).and_then(|client| client.name.as_ref()) else {
            return;
        };
        if !self.users.contains_key(name) {
            return;
        }
        self.line.clear();
        let _ = writeln!(self.line, "{word} main {name} {text}");
        for number in &self.members {
            if let Some(client) = self.clients.get_mut(number) {
                client.outbox.extend_from_slice(&self.line);
            }
        }
    }

    fn read(&mut self, client: u64, piece: &mut [u8]) -> usize {
        let Some(client) = self.clients.get_mut(&client) else {
            return 0;
        };
        let count = client.outbox.len();
        piece[..count].copy_from_slice(&client.outbox);
        client.outbox.clear();
        count
    }
}

fn main() {
    let sizes: Vec<u64> = std::env::args().skip(1).map(|word| word.parse().unwrap()).collect();
    let [clients, users, events, members, words] = sizes[..] else {
        panic!("usage: fanout CLIENTS USERS EVENTS MEMBERS WORDS")
    };
    let mut lobby = Lobby::default();
    for number in 1..=clients {
        lobby.clients.insert(number, Client::default());
    }
    let chosen: Vec<u64> = (0..users).map(|user| 1 + user * STRIDE % clients).collect();
    for (user, client) in chosen.iter().enumerate() {
        let name = format!("u{user:04}");
        lobby.clients.get_mut(client).unwrap().name = Some(name.clone());
        lobby.users.insert(name, 0);
        lobby.listed.insert(*client);
    }
    let mut piece = vec![0; 65_536];
    let mut size = 0;

    let start = Instant::now();
    for event in 0..events {
        let status = if event / users % 2 == 0 { 2 } else { 0 };
        lobby.set_status(chosen[(event % users) as usize], status);
        if event % EVENTS_A_ROUND == EVENTS_A_ROUND - 1 || event == events - 1 {
            size += chosen.iter().map(|client| lobby.read(*client, &mut piece)).sum::<usize>();
        }
    }
    report("lines", start, events * users, size);

    lobby.members = chosen[..members as usize].to_vec();
    size = 0;
    let start = Instant::now();
    for event in 0..words {
        let (word, text) = if event / members % 2 == 0 { ("SAID", "who plays?") } else { ("SAIDEX", "would play") };
        let client = lobby.members[(event % members) as usize];
        lobby.say(client, word, text);
        if event % EVENTS_A_ROUND == EVENTS_A_ROUND - 1 || event == words - 1 {
            for at in 0..lobby.members.len() {
                size += lobby.read(lobby.members[at], &mut piece);
            }
        }
    }
    report("words", start, words * members, size);
}

fn report(what: &str, start: Instant, count: u64, size: usize) {
    let picoseconds = start.elapsed().as_nanos() * 1000;
    println!("{what}: {count}, {size} bytes");
    if count > 0 {
        println!("{} picoseconds each", picoseconds / u128::from(count));
    }
}
