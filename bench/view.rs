// The hand-written fold beside which bench/view.sh puts client_view: a client's bytes from standard input, in pieces of 4,096
// bytes, into hash maps, and what is known at the end to standard output.
//
// It does the work of the view on the lines of the session, over std alone: a line has at most 20,479 bytes, a CR at its end is
// dropped and a message id in front is read, and a line changes something only where each of its fields is of its kind, a name of
// 1 to 20 letters, a number in bounds with no needless zero, a text without CR, and nothing stands behind the last. What is
// kept, and the text of what is said, is owned. It knows no line of the client's own room, which the session has none of.
use std::collections::HashMap;
use std::hint::black_box;
use std::io::{self, Read, Write};

const LINE_LIMIT: usize = 20_479;

struct User {
    country: Vec<u8>,
    cpu: i64,
    account: u32,
    status: u32,
}

#[allow(dead_code)] // Some are kept and not shown.
struct Battle {
    battle_type: u8,
    nat_type: u8,
    founder: Vec<u8>,
    ip: Vec<u8>,
    port: u16,
    max_players: u16,
    passworded: bool,
    rank: i64,
    map_hash: i64,
    engine_name: Vec<u8>,
    engine_version: Vec<u8>,
    map: Vec<u8>,
    title: Vec<u8>,
    game_name: Vec<u8>,
    spectators: u16,
    locked: bool,
    members: Vec<Vec<u8>>,
}

#[derive(Default)]
struct Known {
    me: Vec<u8>,
    users: HashMap<Vec<u8>, User>,
    battles: HashMap<u32, Battle>,
    channels: HashMap<Vec<u8>, Vec<Vec<u8>>>,
}

fn split_at_byte(bytes: &[u8], stop: u8) -> (&[u8], &[u8]) {
    let at = bytes.iter().position(|b| *b == stop).unwrap_or(bytes.len());
    bytes.split_at(at)
}

// The number that a word stands for, as the server prints it.
fn number_in(word: &[u8], low: i64, high: i64) -> Option<i64> {
    let (is_negative, digits) = match word {
        [b'-', digits @ ..] => (true, digits),
        _ => (false, word),
    };
    if digits.is_empty() || digits.len() > 10 || (digits[0] == b'0' && (digits.len() > 1 || is_negative)) {
        return None;
    }
    let mut value = 0i64;
    for b in digits {
        if !b.is_ascii_digit() {
            return None;
        }
        value = 10 * value + i64::from(*b - b'0');
    }
    let value = if is_negative { -value } else { value };
    (low <= value && value <= high).then_some(value)
}

// The fields of a line, one after another: each is None where it is not of its kind.
struct Fields<'a>(&'a [u8]);

impl<'a> Fields<'a> {
    fn piece(&mut self, mark: u8, stop: u8) -> Option<&'a [u8]> {
        let (first, rest) = self.0.split_first()?;
        if *first != mark {
            return None;
        }
        let (piece, rest) = split_at_byte(rest, stop);
        self.0 = rest;
        Some(piece)
    }

    fn word(&mut self) -> Option<&'a [u8]> {
        let word = self.piece(b' ', b' ')?;
        (!word.is_empty() && word.iter().all(|b| !matches!(b, b'\t' | b'\r'))).then_some(word)
    }

    fn name(&mut self) -> Option<&'a [u8]> {
        let name = self.piece(b' ', b' ')?;
        let is_name_byte = |b: &u8| b.is_ascii_alphanumeric() || matches!(b, b'_' | b'[' | b']');
        (1 <= name.len() && name.len() <= 20 && name.iter().all(is_name_byte)).then_some(name)
    }

    fn number(&mut self, low: i64, high: i64) -> Option<i64> {
        number_in(self.piece(b' ', b' ')?, low, high)
    }

    fn battle(&mut self) -> Option<u32> {
        self.number(1, 2147483647).map(|n| n as u32)
    }

    fn u32(&mut self) -> Option<u32> {
        self.number(0, 4294967295).map(|n| n as u32)
    }

    fn u16(&mut self) -> Option<u16> {
        self.number(0, 65535).map(|n| n as u16)
    }

    fn small(&mut self, high: i64) -> Option<u8> {
        self.number(0, high).map(|n| n as u8)
    }

    fn flag(&mut self) -> Option<bool> {
        self.number(0, 1).map(|n| n == 1)
    }

    fn wide(&mut self) -> Option<i64> {
        self.number(-2147483648, 4294967295)
    }

    fn sentence(&mut self, mark: u8) -> Option<&'a [u8]> {
        let sentence = self.piece(mark, b'\t')?;
        (!sentence.contains(&b'\r')).then_some(sentence)
    }

    fn text(&mut self) -> Option<&'a [u8]> {
        let (first, text) = self.0.split_first()?;
        self.0 = &[];
        (*first == b' ' && !text.contains(&b'\r')).then_some(text)
    }

    fn end(&self) -> Option<()> {
        self.0.is_empty().then_some(())
    }
}

fn opened(fields: &mut Fields) -> Option<(u32, Battle)> {
    let number = fields.battle()?;
    let battle_type = fields.small(1)?;
    let nat_type = fields.small(2)?;
    let founder = fields.name()?;
    let ip = fields.word()?;
    let port = fields.u16()?;
    let max_players = fields.u16()?;
    let passworded = fields.flag()?;
    let rank = fields.wide()?;
    let map_hash = fields.wide()?;
    let engine_name = fields.sentence(b' ')?;
    let engine_version = fields.sentence(b'\t')?;
    let map = fields.sentence(b'\t')?;
    let title = fields.sentence(b'\t')?;
    let game_name = fields.sentence(b'\t')?;
    fields.end()?;
    let battle = Battle {
        battle_type,
        nat_type,
        founder: founder.to_vec(),
        ip: ip.to_vec(),
        port,
        max_players,
        passworded,
        rank,
        map_hash,
        engine_name: engine_name.to_vec(),
        engine_version: engine_version.to_vec(),
        map: map.to_vec(),
        title: title.to_vec(),
        game_name: game_name.to_vec(),
        spectators: 0,
        locked: false,
        members: vec![founder.to_vec()],
    };
    Some((number, battle))
}

impl Known {
    // Folds a line without its LF, or skips it: None where it is none that the server prints.
    fn fold(&mut self, line: &[u8]) -> Option<()> {
        let line = line.strip_suffix(b"\r").unwrap_or(line);
        let Some(numbered) = line.strip_prefix(b"#") else {
            return self.fold_body(line);
        };
        let (digits, rest) = split_at_byte(numbered, b' ');
        number_in(digits, 0, 2147483647)?;
        self.fold_body(rest.get(1..)?)
    }

    fn fold_body(&mut self, line: &[u8]) -> Option<()> {
        let (command, rest) = split_at_byte(line, b' ');
        let mut fields = Fields(rest);
        match command {
            b"ACCEPTED" => {
                let me = fields.name()?;
                fields.end()?;
                *self = Known::default();
                self.me = me.to_vec();
            }
            b"ADDUSER" => {
                let (name, country, cpu, account) = (fields.name()?, fields.word()?, fields.wide()?, fields.u32()?);
                fields.end()?;
                let user = User { country: country.to_vec(), cpu, account, status: 0 };
                self.users.insert(name.to_vec(), user);
            }
            b"REMOVEUSER" => {
                let name = fields.name()?;
                fields.end()?;
                self.users.remove(name);
            }
            b"CLIENTSTATUS" => {
                let (name, status) = (fields.name()?, fields.u32()?);
                fields.end()?;
                if let Some(user) = self.users.get_mut(name) {
                    user.status = status;
                }
            }
            b"JOIN" => {
                let channel = fields.name()?;
                fields.end()?;
                self.channels.insert(channel.to_vec(), Vec::new());
            }
            b"JOINED" => {
                let (channel, name) = (fields.name()?, fields.name()?);
                fields.end()?;
                if let Some(names) = self.channels.get_mut(channel) {
                    names.push(name.to_vec());
                }
            }
            b"LEFT" => {
                let (channel, name) = (fields.name()?, fields.name()?);
                fields.end()?;
                if name == self.me {
                    self.channels.remove(channel);
                } else if let Some(names) = self.channels.get_mut(channel) {
                    names.retain(|n| n != name);
                }
            }
            b"BATTLEOPENED" => {
                let (number, battle) = opened(&mut fields)?;
                self.battles.insert(number, battle);
            }
            b"BATTLECLOSED" => {
                let number = fields.battle()?;
                fields.end()?;
                self.battles.remove(&number);
            }
            b"UPDATEBATTLEINFO" => {
                let (number, spectators, locked) = (fields.battle()?, fields.u16()?, fields.flag()?);
                let (map_hash, map) = (fields.wide()?, fields.sentence(b' ')?);
                fields.end()?;
                if let Some(battle) = self.battles.get_mut(&number) {
                    battle.spectators = spectators;
                    battle.locked = locked;
                    battle.map_hash = map_hash;
                    battle.map = map.to_vec();
                }
            }
            b"JOINEDBATTLE" => {
                let (number, name) = (fields.battle()?, fields.name()?);
                if !fields.0.is_empty() {
                    black_box(fields.word()?.to_vec());
                    fields.end()?;
                }
                if let Some(battle) = self.battles.get_mut(&number) {
                    battle.members.push(name.to_vec());
                }
            }
            b"LEFTBATTLE" => {
                let (number, name) = (fields.battle()?, fields.name()?);
                fields.end()?;
                if let Some(battle) = self.battles.get_mut(&number) {
                    battle.members.retain(|n| n != name);
                }
            }
            b"SAID" => {
                let (_channel, _name, text) = (fields.name()?, fields.name()?, fields.text()?);
                black_box(text.to_vec());
            }
            b"TASSERVER" => {
                let _ = (fields.word()?, fields.word()?, fields.u16()?, fields.small(1)?);
                fields.end()?;
            }
            b"LOGININFOEND" => fields.end()?,
            _ => return None,
        }
        Some(())
    }
}

fn main() -> io::Result<()> {
    let mut known = Known::default();
    let mut input = io::stdin().lock();
    let mut piece = [0; 4096];
    let mut rest = Vec::new();
    let mut folded = 0;
    'input: loop {
        let count = input.read(&mut piece)?;
        if count == 0 {
            break;
        }
        let mut ahead = &piece[..count];
        while let Some(end) = ahead.iter().position(|b| *b == b'\n') {
            if rest.len() + end > LINE_LIMIT {
                break 'input;
            }
            let is_folded = if rest.is_empty() {
                known.fold(&ahead[..end]).is_some()
            } else {
                rest.extend_from_slice(&ahead[..end]);
                let is_folded = known.fold(&rest).is_some();
                rest.clear();
                is_folded
            };
            folded += usize::from(is_folded);
            ahead = &ahead[end + 1..];
        }
        if rest.len() + ahead.len() > LINE_LIMIT {
            break;
        }
        rest.extend_from_slice(ahead);
    }
    show(&known, folded)
}

fn show(known: &Known, folded: usize) -> io::Result<()> {
    let mut out = io::BufWriter::new(io::stdout().lock());
    writeln!(out, "folded {folded}")?;
    for (name, user) in &known.users {
        out.write_all(b"user ")?;
        out.write_all(name)?;
        out.write_all(&user.country)?;
        writeln!(out, " {} {} {}", user.cpu, user.account, user.status)?;
    }
    for (id, battle) in &known.battles {
        writeln!(out, "battle {id} {} {} {}", battle.spectators, battle.locked, battle.map_hash)?;
        out.write_all(&battle.founder)?;
        out.write_all(b"\n")?;
        for name in &battle.members {
            out.write_all(b"member ")?;
            out.write_all(name)?;
            out.write_all(b"\n")?;
        }
    }
    writeln!(out, "channel {}", known.channels.len())
}
