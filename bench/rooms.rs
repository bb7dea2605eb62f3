//! Tells the members of battles of each other's statuses and of disabled units, and lets users into battles, written by hand
//! over Rust's std alone: a baseline of bench/programs/bench_lobby.
//!
//! Each client has a buffer of its own in a map by number, each user its client and battle in a map by name, and each battle
//! the clients and statuses of its members, its disabled units in order and as a set, and who asks to join. An event looks its
//! user up, its battle and what it changes there, formats each line once, and appends it to the buffer of each who gets it.
//! After the members of twelve battles have spoken in turn, these read all.

use std::collections::{BTreeMap, HashSet};
use std::io::Write;
use std::time::Instant;

const STRIDE: u64 = 7_919;
const MEMBERS: usize = 8;
const MEMBERS_A_ROUND: usize = 12 * MEMBERS;
const UNIT_LIMIT: usize = 1_024;

#[derive(Default)]
struct Client {
    name: Option<String>,
    outbox: Vec<u8>,
}

struct User {
    client: u64,
    battle: Option<u32>,
}

struct Member {
    name: String,
    client: u64,
    status: u32,
    colour: i64,
}

/// A battle, whose first member is its founder.
#[derive(Default)]
struct Battle {
    members: Vec<Member>,
    units: Vec<Vec<u8>>,
    disabled: HashSet<Vec<u8>>,
    askers: Vec<String>,
}

#[derive(Default)]
struct Lobby {
    clients: BTreeMap<u64, Client>,
    users: BTreeMap<String, User>,
    battles: BTreeMap<u32, Battle>,
    line: Vec<u8>,
}

/// Appends a line to the buffer of a client.
fn put(clients: &mut BTreeMap<u64, Client>, client: u64, line: &[u8]) {
    if let Some(client) = clients.get_mut(&client) {
        client.outbox.extend_from_slice(line);
    }
}

impl Lobby {
    fn log_in(&mut self, client: u64, name: String) {
        if let Some(client) = self.clients.get_mut(&client) {
            client.name = Some(name.clone());
        }
        self.users.insert(name, User { client, battle: None });
    }

    /// A user is put into a battle, and nobody is told.
    fn join(&mut self, battle: u32, name: &str) {
        let Some(user) = self.users.get_mut(name) else {
            return;
        };
        user.battle = Some(battle);
        let client = user.client;
        self.battles.entry(battle).or_default().members.push(Member {
            name: name.to_string(),
            client,
            status: 0,
            colour: 0,
        });
    }

    fn set_status(&mut self, client: u64, status: u32, colour: i64) {
        let Some(name) = self.clients.get(&client).and_then(|client| client.name.as_ref()) else {
            return;
        };
        let Some(number) = self.users.get(name).and_then(|user| user.battle) else {
            return;
        };
        let Some(battle) = self.battles.get_mut(&number) else {
            return;
        };
        let Some(member) = battle.members.iter_mut().find(|member| member.client == client) else {
            return;
        };
        member.status = status;
        member.colour = colour;
        self.line.clear();
        let _ = writeln!(self.line, "CLIENTBATTLESTATUS {name} {status} {colour}");
        for member in battle.members.iter() {
            put(&mut self.clients, member.client, &self.line);
        }
    }

    /// The battle that a client founded.
    fn founded(&mut self, client: u64) -> Option<(u32, &mut Battle, &mut BTreeMap<u64, Client>, &mut Vec<u8>)> {
        let name = self.clients.get(&client)?.name.as_ref()?;
        let number = self.users.get(name)?.battle?;
        let battle = self.battles.get_mut(&number)?;
        let is_founder = battle.members.first()?.client == client;
        is_founder.then_some((number, battle, &mut self.clients, &mut self.line))
    }

    /// A founder disables units, and the members get those that were not disabled.
    fn disable(&mut self, client: u64, words: &[Vec<u8>]) {
        let Some((_, battle, clients, line)) = self.founded(client) else {
            return;
        };
        let distinct: HashSet<&Vec<u8>> = words.iter().filter(|word| !battle.disabled.contains(*word)).collect();
        if battle.units.len() + distinct.len() > UNIT_LIMIT {
            return;
        }
        line.clear();
        line.extend_from_slice(b"DISABLEUNITS");
        let before = battle.units.len();
        for word in words {
            if battle.disabled.insert(word.clone()) {
                battle.units.push(word.clone());
                line.push(b' ');
                line.extend_from_slice(word);
            }
        }
        line.push(b'\n');
        if battle.units.len() > before {
            for member in &battle.members {
                put(clients, member.client, line);
            }
        }
    }

    /// A founder enables units again, and nobody is told.
    fn enable(&mut self, client: u64, words: &[Vec<u8>]) {
        let Some((_, battle, _, _)) = self.founded(client) else {
            return;
        };
        let gone: HashSet<&Vec<u8>> = words.iter().collect();
        battle.units.retain(|unit| !gone.contains(unit));
        for word in words {
            battle.disabled.remove(word);
        }
    }

    /// A user asks to join a battle, and its founder is told.
    fn ask(&mut self, client: u64, number: u32) {
        let Some(name) = self.clients.get(&client).and_then(|client| client.name.clone()) else {
            return;
        };
        if self.users.get(&name).is_none_or(|user| user.battle.is_some()) {
            return;
        }
        let Some(battle) = self.battles.get_mut(&number) else {
            return;
        };
        let Some(founder) = battle.members.first() else {
            return;
        };
        self.line.clear();
        let _ = writeln!(self.line, "JOINBATTLEREQUEST {name} 10.0.0.1");
        put(&mut self.clients, founder.client, &self.line);
        battle.askers.push(name);
    }

    /// A founder lets one in who asks.
    fn accept(&mut self, client: u64, name: &str) {
        let Some((number, battle, _, _)) = self.founded(client) else {
            return;
        };
        let Some(place) = battle.askers.iter().position(|asker| asker == name) else {
            return;
        };
        battle.askers.remove(place);
        self.enter(number, name);
    }

    /// A user joins a battle, and gets what its members share; all others get its name.
    fn enter(&mut self, number: u32, name: &str) {
        let (Some(client), Some(battle)) = (self.users.get(name).map(|user| user.client), self.battles.get(&number)) else {
            return;
        };
        self.line.clear();
        let _ = writeln!(self.line, "JOINBATTLE {number} -1");
        let _ = writeln!(self.line, "JOINEDBATTLE {number} {name}");
        for member in &battle.members {
            let _ = writeln!(self.line, "CLIENTBATTLESTATUS {} {} {}", member.name, member.status, member.colour);
        }
        for unit in &battle.units {
            self.line.extend_from_slice(b"DISABLEUNITS ");
            self.line.extend_from_slice(unit);
            self.line.push(b'\n');
        }
        self.line.extend_from_slice(b"REQUESTBATTLESTATUS\n");
        put(&mut self.clients, client, &self.line);
        self.line.clear();
        let _ = writeln!(self.line, "JOINEDBATTLE {number} {name}");
        for (other, user) in &self.users {
            if other != name {
                put(&mut self.clients, user.client, &self.line);
            }
        }
        self.join(number, name);
    }

    /// A member who is not the founder leaves, and nobody is told.
    fn leave(&mut self, name: &str) {
        let Some(user) = self.users.get_mut(name) else {
            return;
        };
        if let Some(battle) = user.battle.take().and_then(|number| self.battles.get_mut(&number)) {
            battle.members.retain(|member| member.name != name);
        }
    }

    fn read(&mut self, client: u64, piece: &mut [u8]) -> usize {
        let Some(client) = self.clients.get_mut(&client) else {
            return 0;
        };
        let count = client.outbox.len();
        piece[..count].copy_from_slice(&client.outbox);
        client.outbox.clear();
        count
    }
}

/// Prints what came out, and how long each took.
fn report(what: &str, count: u64, size: usize, nanos: u128) {
    println!("{what}: {count}, {size} bytes");
    if count > 0 {
        println!("{} picoseconds each", nanos * 1000 / u128::from(count));
    }
}

fn units(numbers: std::ops::Range<u32>) -> Vec<Vec<u8>> {
    numbers.map(|number| format!("unit{number:04}").into_bytes()).collect()
}

fn main() {
    let sizes: Vec<u64> = std::env::args().skip(1).map(|word| word.parse().unwrap()).collect();
    let [clients, users, battles, statuses, disables, joins, asks] = sizes[..] else {
        panic!("usage: rooms CLIENTS USERS BATTLES STATUSES UNITS JOINS ASKS")
    };
    let mut lobby = Lobby::default();
    for number in 1..=clients {
        lobby.clients.insert(number, Client::default());
    }
    let chosen: Vec<u64> = (0..users).map(|user| 1 + user * STRIDE % clients).collect();
    for (user, client) in chosen.iter().enumerate() {
        lobby.log_in(*client, format!("u{user:04}"));
    }
    for battle in 0..battles as usize {
        for user in battle * MEMBERS..(battle + 1) * MEMBERS {
            lobby.join(battle as u32 + 1, &format!("u{user:04}"));
        }
    }
    let mut piece = vec![0; 65_536];
    let members = &chosen[..battles as usize * MEMBERS];
    time_statuses(&mut lobby, members, statuses, &mut piece);
    time_units(&mut lobby, &chosen[..chosen.len().min(MEMBERS)], disables, &mut piece);
    time_joins(&mut lobby, &chosen, joins, &mut piece);
    if asks > 0 {
        let host = 1 + users * STRIDE % clients;
        lobby.log_in(host, format!("u{users:04}"));
        time_asks(&mut lobby, &chosen, host, battles as u32 + 1, asks, &mut piece);
    }
}

/// Members set their statuses in turn.
fn time_statuses(lobby: &mut Lobby, members: &[u64], statuses: u64, piece: &mut [u8]) {
    let mut size = 0;
    let start = Instant::now();
    let mut left = statuses as usize;
    for status in [1026, 1024].iter().cycle() {
        for spoken in members.chunks(MEMBERS_A_ROUND) {
            let count = left.min(spoken.len());
            for client in &spoken[..count] {
                lobby.set_status(*client, *status, 255);
            }
            size += spoken.iter().map(|client| lobby.read(*client, piece)).sum::<usize>();
            left -= count;
        }
        if left == 0 {
            break;
        }
    }
    report("shown", statuses * MEMBERS as u64, size, start.elapsed().as_nanos());
}

fn read_all(lobby: &mut Lobby, clients: &[u64], piece: &mut [u8]) -> usize {
    clients.iter().map(|client| lobby.read(*client, piece)).sum()
}

/// The founder of the first battle disables 100 units beside 900.
fn time_units(lobby: &mut Lobby, members: &[u64], count: u64, piece: &mut [u8]) {
    let (mut size, mut nanos) = (0, 0);
    let more = units(900..1_000);
    if count > 0 {
        lobby.disable(members[0], &units(0..900));
        read_all(lobby, members, piece);
    }
    for _ in 0..count {
        let start = Instant::now();
        lobby.disable(members[0], &more);
        nanos += start.elapsed().as_nanos();
        size += read_all(lobby, members, piece);
        lobby.enable(members[0], &more);
    }
    report("disables", count, size, nanos);
}

/// The last user joins the first battle, in which 1,000 units are disabled.
fn time_joins(lobby: &mut Lobby, users: &[u64], count: u64, piece: &mut [u8]) {
    let guest = format!("u{:04}", users.len().saturating_sub(1));
    let (mut size, mut nanos) = (0, 0);
    if count > 0 {
        lobby.disable(users[0], &units(0..900));
        lobby.disable(users[0], &units(900..1_000));
        read_all(lobby, users, piece);
    }
    for _ in 0..count {
        let start = Instant::now();
        lobby.enter(1, &guest);
        nanos += start.elapsed().as_nanos();
        size += read_all(lobby, users, piece);
        lobby.leave(&guest);
    }
    report("enters", count, size, nanos);
}

/// One who is more than the users founds a battle, and lets in the last of them, who asks.
fn time_asks(lobby: &mut Lobby, users: &[u64], host: u64, number: u32, count: u64, piece: &mut [u8]) {
    let guest = format!("u{:04}", users.len() - 1);
    let (mut size, mut nanos) = (0, 0);
    lobby.join(number, &format!("u{:04}", users.len()));
    for _ in 0..count {
        let start = Instant::now();
        lobby.ask(users[users.len() - 1], number);
        lobby.accept(host, &guest);
        nanos += start.elapsed().as_nanos();
        size += read_all(lobby, users, piece) + lobby.read(host, piece);
        lobby.leave(&guest);
    }
    report("asks", count, size, nanos);
}
