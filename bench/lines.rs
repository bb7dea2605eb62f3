//! Reads and prints the mixes of lines of bench/programs/bench_grammar, written by hand over Rust's std alone: its baseline.
//!
//! It knows all command words, and reads the arguments of the commands of the mix by the same rules: bytes without CR and
//! LF, words behind runs of spaces, names of 1 to 20 letters, numbers within bounds, and each argument that is kept owned.
#![allow(dead_code)] // The fields that only other programs would read are parsed all the same.

use std::hint::black_box;
use std::time::Instant;

const REQUESTS: [&[u8]; 5] = [
    b"SAY main hello there, anyone for a game?",
    b"MYSTATUS 4",
    b"JOINBATTLE 7",
    b"MYBATTLESTATUS 4194816 255",
    b"SETSCRIPTTAGS game/modoptions/a=1\tgame/b=2",
];

enum Command {
    Blank,
    Unread(Fault),
    Say { channel: Vec<u8>, text: Vec<u8> },
    MyStatus { status: u32 },
    JoinBattle { battle: u32, password: Option<Vec<u8>>, script_password: Option<Vec<u8>> },
    MyBattleStatus { battle_status: u32, team_color: i64 },
    SetScriptTags { pairs: Vec<(Vec<u8>, Vec<u8>)> },
    Other(usize),
}

#[derive(Clone, Copy)]
enum Fault {
    UnknownCommand,
    MissingArgument,
    BadNumber,
    BadName,
    BadByte,
    BadPair,
}

struct Request {
    id: Option<u32>,
    command: Command,
}

fn without_spaces(bytes: &[u8]) -> &[u8] {
    let at = bytes.iter().position(|b| *b != b' ').unwrap_or(bytes.len());
    &bytes[at..]
}

fn split_at_byte(bytes: &[u8], stop: u8) -> (&[u8], &[u8]) {
    let at = bytes.iter().position(|b| *b == stop).unwrap_or(bytes.len());
    bytes.split_at(at)
}

fn number(word: &[u8], low: i64, high: i64) -> Option<i64> {
    let (is_negative, digits) = match word {
        [b'-', digits @ ..] => (true, digits),
        _ => (false, word),
    };
    if digits.is_empty() || digits.len() > 10 {
        return None;
    }
    let mut value = 0i64;
    for b in digits {
        if !b.is_ascii_digit() {
            return None;
        }
        value = 10 * value + i64::from(*b - b'0');
    }
    let value = if is_negative { -value } else { value };
    (low <= value && value <= high).then_some(value)
}

/// The words of a line, one after another.
struct Words<'a>(&'a [u8]);

impl<'a> Words<'a> {
    fn optional(&mut self) -> Result<Option<&'a [u8]>, Fault> {
        let (word, rest) = split_at_byte(without_spaces(self.0), b' ');
        self.0 = rest;
        if word.is_empty() {
            return Ok(None);
        }
        if word.contains(&b'\t') {
            return Err(Fault::BadByte);
        }
        Ok(Some(word))
    }

    fn word(&mut self) -> Result<&'a [u8], Fault> {
        self.optional()?.ok_or(Fault::MissingArgument)
    }

    fn name(&mut self) -> Result<&'a [u8], Fault> {
        let word = self.word()?;
        let is_name_byte = |b: &u8| b.is_ascii_alphanumeric() || matches!(b, b'_' | b'[' | b']');
        if word.len() > 20 || !word.iter().all(is_name_byte) {
            return Err(Fault::BadName);
        }
        Ok(word)
    }

    fn number(&mut self, low: i64, high: i64) -> Result<i64, Fault> {
        number(self.word()?, low, high).ok_or(Fault::BadNumber)
    }

    fn text(&self) -> Result<&'a [u8], Fault> {
        self.0.split_first().map(|(_, text)| text).ok_or(Fault::MissingArgument)
    }
}

fn pairs(text: &[u8]) -> Result<Vec<(Vec<u8>, Vec<u8>)>, Fault> {
    let mut pairs = Vec::new();
    for sentence in text.split(|b| *b == b'\t').filter(|sentence| !sentence.is_empty()) {
        let (key, behind) = split_at_byte(sentence, b'=');
        if key.is_empty() || behind.is_empty() || key.contains(&b' ') {
            return Err(Fault::BadPair);
        }
        pairs.push((key.to_vec(), behind[1..].to_vec()));
    }
    if pairs.is_empty() {
        return Err(Fault::MissingArgument);
    }
    Ok(pairs)
}

fn read_command(text: &[u8]) -> Result<Command, Fault> {
    if text.is_empty() {
        return Ok(Command::Blank);
    }
    if !text.iter().all(|b| *b != b'\r' && *b != b'\n') {
        return Err(Fault::BadByte);
    }
    let (word, rest) = split_at_byte(text, b' ');
    let mut words = Words(rest);
    Ok(match word {
        b"SAY" => {
            let channel = words.name()?;
            let text = words.text()?;
            Command::Say { channel: channel.to_vec(), text: text.to_vec() }
        }
        b"MYSTATUS" => Command::MyStatus { status: words.number(0, 4294967295)? as u32 },
        b"JOINBATTLE" => {
            let battle = words.number(0, 2147483647)? as u32;
            let password = words.optional()?;
            let script_password = words.optional()?;
            Command::JoinBattle {
                battle,
                password: password.map(<[u8]>::to_vec),
                script_password: script_password.map(<[u8]>::to_vec),
            }
        }
        b"MYBATTLESTATUS" => Command::MyBattleStatus {
            battle_status: words.number(0, 4294967295)? as u32,
            team_color: words.number(-2147483648, 4294967295)?,
        },
        b"SETSCRIPTTAGS" => Command::SetScriptTags { pairs: pairs(words.text()?)? },
        // Written by tools/protocol.py of protocol/commands.toml: words.
        b"PING" => Command::Other(0),
        b"EXIT" => Command::Other(1),
        b"LOGIN" => Command::Other(2),
        b"CHANNELS" => Command::Other(3),
        b"JOIN" => Command::Other(4),
        b"LEAVE" => Command::Other(5),
        b"SAYEX" => Command::Other(6),
        b"SAYPRIVATE" => Command::Other(7),
        b"OPENBATTLE" => Command::Other(8),
        b"JOINBATTLEACCEPT" => Command::Other(9),
        b"JOINBATTLEDENY" => Command::Other(10),
        b"LEAVEBATTLE" => Command::Other(11),
        b"UPDATEBATTLEINFO" => Command::Other(12),
        b"SAYBATTLE" => Command::Other(13),
        b"SAYBATTLEEX" => Command::Other(14),
        b"ADDBOT" => Command::Other(15),
        b"UPDATEBOT" => Command::Other(16),
        b"REMOVEBOT" => Command::Other(17),
        b"ADDSTARTRECT" => Command::Other(18),
        b"REMOVESTARTRECT" => Command::Other(19),
        b"REMOVESCRIPTTAGS" => Command::Other(20),
        b"DISABLEUNITS" => Command::Other(21),
        b"ENABLEUNITS" => Command::Other(22),
        b"ENABLEALLUNITS" => Command::Other(23),
        b"HANDICAP" => Command::Other(24),
        b"FORCETEAMNO" => Command::Other(25),
        b"FORCEALLYNO" => Command::Other(26),
        b"FORCETEAMCOLOR" => Command::Other(27),
        b"FORCESPECTATORMODE" => Command::Other(28),
        b"KICKFROMBATTLE" => Command::Other(29),
        b"RING" => Command::Other(30),
        // End of what is written: words.
        _ => return Err(Fault::UnknownCommand),
    })
}

fn read_id(line: &[u8]) -> (Option<u32>, &[u8]) {
    let [b'#', rest @ ..] = line else {
        return (None, line);
    };
    let (digits, behind) = split_at_byte(rest, b' ');
    if behind.is_empty() || digits.starts_with(b"-") {
        return (None, line);
    }
    match number(digits, 0, 2147483647) {
        Some(id) => (Some(id as u32), without_spaces(behind)),
        None => (None, line),
    }
}

fn read_request(line: &[u8]) -> Request {
    let (id, text) = read_id(without_spaces(line));
    Request { id, command: read_command(text).unwrap_or_else(Command::Unread) }
}

enum Reply {
    Said { channel: Vec<u8>, user: Vec<u8>, text: Vec<u8> },
    ClientStatus { user: Vec<u8>, status: u32 },
    JoinedBattle { battle: u32, user: Vec<u8>, script_password: Option<Vec<u8>> },
    ClientBattleStatus { user: Vec<u8>, battle_status: u32, team_color: i64 },
    SetScriptTags { pairs: Vec<(Vec<u8>, Vec<u8>)> },
}

fn put_behind(out: &mut Vec<u8>, mark: u8, bytes: &[u8]) {
    out.push(mark);
    out.extend_from_slice(bytes);
}

fn put_number(out: &mut Vec<u8>, number: i64) {
    let mut digits = [0u8; 20];
    let mut at = digits.len();
    let mut left = number.unsigned_abs();
    loop {
        at -= 1;
        digits[at] = b'0' + (left % 10) as u8;
        left /= 10;
        if left == 0 {
            break;
        }
    }
    if number < 0 {
        at -= 1;
        digits[at] = b'-';
    }
    put_behind(out, b' ', &digits[at..]);
}

fn print(reply: &Reply, id: Option<u32>, out: &mut Vec<u8>) {
    if let Some(id) = id {
        out.push(b'#');
        out.extend_from_slice(id.to_string().as_bytes());
        out.push(b' ');
    }
    match reply {
        Reply::Said { channel, user, text } => {
            out.extend_from_slice(b"SAID");
            put_behind(out, b' ', channel);
            put_behind(out, b' ', user);
            put_behind(out, b' ', text);
        }
        Reply::ClientStatus { user, status } => {
            out.extend_from_slice(b"CLIENTSTATUS");
            put_behind(out, b' ', user);
            put_number(out, i64::from(*status));
        }
        Reply::JoinedBattle { battle, user, script_password } => {
            out.extend_from_slice(b"JOINEDBATTLE");
            put_number(out, i64::from(*battle));
            put_behind(out, b' ', user);
            if let Some(word) = script_password {
                put_behind(out, b' ', word);
            }
        }
        Reply::ClientBattleStatus { user, battle_status, team_color } => {
            out.extend_from_slice(b"CLIENTBATTLESTATUS");
            put_behind(out, b' ', user);
            put_number(out, i64::from(*battle_status));
            put_number(out, *team_color);
        }
        Reply::SetScriptTags { pairs } => {
            out.extend_from_slice(b"SETSCRIPTTAGS");
            let mut mark = b' ';
            for (key, value) in pairs {
                put_behind(out, mark, key);
                put_behind(out, b'=', value);
                mark = b'\t';
            }
        }
    }
    out.push(b'\n');
}

/// The requests of the mix, printed: numbers in their ranges, lists with something in them, no word behind a missing one, and
/// lines of at most 8,192 bytes.
fn print_request(request: &Request, out: &mut Vec<u8>) -> Result<(), &'static str> {
    let start = out.len();
    if let Some(id) = request.id {
        if id > 2147483647 {
            return Err("a number is out of its range");
        }
        out.push(b'#');
        out.extend_from_slice(id.to_string().as_bytes());
        out.push(b' ');
    }
    let is_wide = |z: i64| -2147483648 <= z && z <= 4294967295;
    match &request.command {
        Command::Say { channel, text } => {
            out.extend_from_slice(b"SAY");
            put_behind(out, b' ', channel);
            put_behind(out, b' ', text);
        }
        Command::MyStatus { status } => {
            out.extend_from_slice(b"MYSTATUS");
            put_number(out, i64::from(*status));
        }
        Command::JoinBattle { battle, password, script_password } => {
            if *battle > 2147483647 || (password.is_none() && script_password.is_some()) {
                out.truncate(start);
                return Err("a number or a word is not to be printed");
            }
            out.extend_from_slice(b"JOINBATTLE");
            put_number(out, i64::from(*battle));
            for word in password.iter().chain(script_password) {
                put_behind(out, b' ', word);
            }
        }
        Command::MyBattleStatus { battle_status, team_color } => {
            if !is_wide(*team_color) {
                out.truncate(start);
                return Err("a number is out of its range");
            }
            out.extend_from_slice(b"MYBATTLESTATUS");
            put_number(out, i64::from(*battle_status));
            put_number(out, *team_color);
        }
        Command::SetScriptTags { pairs } => {
            if pairs.is_empty() {
                out.truncate(start);
                return Err("nothing is listed");
            }
            out.extend_from_slice(b"SETSCRIPTTAGS");
            let mut mark = b' ';
            for (key, value) in pairs {
                put_behind(out, mark, key);
                put_behind(out, b'=', value);
                mark = b'\t';
            }
        }
        _ => return Err("not in the mix"),
    }
    if out.len() - start > 8192 {
        out.truncate(start);
        return Err("the line would be too long");
    }
    out.push(b'\n');
    Ok(())
}

fn replies() -> [Reply; 5] {
    let user = || b"alice".to_vec();
    [
        Reply::Said {
            channel: b"main".to_vec(),
            user: user(),
            text: b"hello there, anyone for a game?".to_vec(),
        },
        Reply::ClientStatus { user: user(), status: 4 },
        Reply::JoinedBattle { battle: 7, user: user(), script_password: None },
        Reply::ClientBattleStatus { user: user(), battle_status: 4194816, team_color: 255 },
        Reply::SetScriptTags {
            pairs: vec![
                (b"game/modoptions/a".to_vec(), b"1".to_vec()),
                (b"game/b".to_vec(), b"2".to_vec()),
            ],
        },
    ]
}

fn sum_of(command: &Command) -> u64 {
    match command {
        Command::Say { channel, text } => (channel.len() + text.len()) as u64,
        Command::MyStatus { status } => u64::from(*status),
        Command::JoinBattle { battle, .. } => u64::from(*battle),
        Command::MyBattleStatus { battle_status, team_color } => {
            u64::from(*battle_status).wrapping_add(team_color.unsigned_abs())
        }
        Command::SetScriptTags { pairs } => {
            pairs.iter().map(|(key, value)| (key.len() + value.len()) as u64).sum()
        }
        _ => 0,
    }
}

fn report(what: &str, lines: u64, sum: u64, start: Instant) {
    let nanoseconds = start.elapsed().as_nanos();
    println!("{what}: {lines} lines, sum {sum}");
    println!("{} picoseconds a line", nanoseconds * 1000 / u128::from(lines.max(1)));
}

fn main() {
    let passes: u64 = std::env::args().nth(1).map_or(1, |word| word.parse().unwrap());

    let start = Instant::now();
    let (mut lines, mut sum) = (0u64, 0u64);
    for _ in 0..passes {
        for line in REQUESTS {
            let request = black_box(read_request(black_box(line)));
            lines += 1;
            sum = sum.wrapping_add(sum_of(&request.command));
        }
    }
    report("read", lines, sum, start);

    let replies = black_box(replies());
    let start = Instant::now();
    let (mut lines, mut sum) = (0u64, 0u64);
    let mut out = Vec::new();
    for _ in 0..passes {
        out.clear();
        for reply in &replies {
            print(reply, black_box(None), &mut out);
            lines += 1;
            sum = sum.wrapping_add(out.len() as u64);
        }
    }
    for byte in &out {
        sum = sum.wrapping_add(u64::from(*byte));
    }
    report("printed", lines, sum, start);

    let requests = black_box(REQUESTS.map(read_request));
    let start = Instant::now();
    let (mut lines, mut sum) = (0u64, 0u64);
    out.clear();
    for _ in 0..passes {
        out.clear();
        for request in &requests {
            print_request(request, &mut out).unwrap();
            lines += 1;
            sum = sum.wrapping_add(out.len() as u64);
        }
    }
    for byte in &out {
        sum = sum.wrapping_add(u64::from(*byte));
    }
    report("asked", lines, sum, start);
}
