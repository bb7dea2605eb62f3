"""What the users of a crowd said, and whether each client was told just that: what crowd.py compares at its end.

One lobby stands behind all connections, so what all are told comes to each in one common order: the first to log in has it
whole, and another from its own log in on. What is told in a channel or in a battle comes to its members in one order too. In
those orders each user's own lines stand as it said them, each once. From that follows what each client knows at the end, which
has to be what view_show makes of its bytes."""
import bisect
import collections
import concurrent.futures
import os
import re
import subprocess

from lobby_server import ADDRESS, GREETING, Difference, program

# The fields of a battle status that are a member's own.
OWN_FIELDS = 0x0FC0_07FE
ALL = re.compile(rb"(?m)^(?:ADDUSER|REMOVEUSER|CLIENTSTATUS|BATTLEOPENED|BATTLECLOSED|UPDATEBATTLEINFO|JOINEDBATTLE|LEFTBATTLE) .*\n")
ROOM = re.compile(
    rb"(?m)^(?:OPENBATTLE|JOINBATTLE|REQUESTBATTLESTATUS|CLIENTBATTLESTATUS|SAIDBATTLE|JOINEDBATTLE|LEFTBATTLE|BATTLECLOSED)\b.*\n"
)
CHANNEL = re.compile(rb"(?m)^(?:JOIN|CLIENTS|JOINED|LEFT|SAID) .*\n")
PRIVATE = re.compile(rb"(?m)^(?:SAYPRIVATE|SAIDPRIVATE) .*\n")
# Lines of battles that are told to all users.
OF_ALL = (b"JOINEDBATTLE", b"LEFTBATTLE", b"BATTLECLOSED")
PONG = re.compile(rb"(?m)^#\d+ PONG\n")


class Said:
    """What was said, by whom, as the lines that have to be told of it."""

    def __init__(self):
        self.accounts, self.founders, self.left = {}, {}, set()
        self.channel_of, self.battle_of = {}, {}
        lists = lambda: collections.defaultdict(list)
        self.to_all, self.in_room, self.in_channel, self.private = lists(), lists(), lists(), lists()

    def tell_all(self, name, line):
        self.to_all[name].append(f"{line}\n".encode())

    def arrive(self, account):
        self.accounts[account.name] = account
        self.to_all[account.name] += account.arrival().encode().splitlines(True)

    def join(self, name, channel):
        self.channel_of[name] = channel

    def found(self, account, number):
        self.battle_of[account.name], self.founders[number] = number, account.name
        rest = f"8452 8 0 0 123 Spring\t104.0\tComet Catcher\tOf {account.name}\tBA 9.46"
        self.tell_all(account.name, f"BATTLEOPENED {number} 0 0 {account.name} {ADDRESS} {rest}")

    def join_battle(self, name, number):
        self.battle_of[name] = number
        self.tell_all(name, f"JOINEDBATTLE {number} {name}")

    def leave_battle(self, name):
        self.tell_all(name, f"LEFTBATTLE {self.battle_of.pop(name)} {name}")

    def set_status(self, account, word):
        self.tell_all(account.name, f"CLIENTSTATUS {account.name} {word & 3 | account.status()}")

    def speak(self, name, text):
        channel = self.channel_of[name]
        self.in_channel[channel, name].append(f"SAID {channel} {name} {text}\n".encode())

    def speak_in_battle(self, name, text):
        self.in_room[self.battle_of[name], name].append(f"SAIDBATTLE {name} {text}\n".encode())

    def set_battle_status(self, name, word, colour):
        line = f"CLIENTBATTLESTATUS {name} {word & OWN_FIELDS} {colour}\n"
        self.in_room[self.battle_of[name], name].append(line.encode())

    def speak_privately(self, name, other, text):
        self.private[name, "SAYPRIVATE", other].append(f"SAYPRIVATE {other} {text}\n".encode())
        self.private[other, "SAIDPRIVATE", name].append(f"SAIDPRIVATE {name} {text}\n".encode())

    def leave(self, name):
        self.left.add(name)


def differ(what, wanted, found):
    """Tells of the first place at which two lists of lines differ."""
    for at, (one, other) in enumerate(zip(wanted, found)):
        if one != other:
            raise Difference(f"{what}: at line {at} wanted {one}, found {other}")
    both = min(len(wanted), len(found))
    raise Difference(f"{what}: wanted {len(wanted)} lines, found {len(found)}; behind the same ones {wanted[both:][:3]}, {found[both:][:3]}")


def hold(what, wanted, found, is_front=False):
    """Compares lists of lines; of one who left the front is enough."""
    if found != (wanted[: len(found)] if is_front else wanted):
        differ(what, wanted, found)


class Order:
    """What all are told, as the first to log in was told it, and where in it each other one begins."""

    def __init__(self, said, first):
        self.lines = ALL.findall(first.heard, begin_of(first))
        self.bytes = b"".join(self.lines)
        self.places, place = {first.account.name: 0}, 0
        for line, following in zip(self.lines, [*self.lines[1:], b""]):
            place += len(line)
            if line.startswith(b"ADDUSER "):
                name = line.split()[1].decode()
                is_two = following.startswith(b"CLIENTSTATUS ") and said.accounts[name].status()
                self.places[name] = place + (len(following) if is_two else 0)

    def check(self, one, found, has_left):
        """One who logged in later was told the rest of it, or the front of that, if it left."""
        wanted = self.bytes[self.places[one] :]
        if not (wanted.startswith(found) if has_left else wanted == found):
            differ(f"what {one} is told with all", wanted.splitlines(True), found.splitlines(True))


def begin_of(peer):
    """Where the bytes begin that a client was told behind its log in."""
    end = b"\nLOGININFOEND\n"
    return peer.heard.index(end) + len(end)


class Heard:
    """What one client was told, by kinds."""

    def __init__(self, peer, order):
        self.name, self.bytes = peer.account.name, peer.heard
        begin = begin_of(peer)
        self.burst = bytes(self.bytes[:begin])
        to_all = b"".join(ALL.findall(self.bytes, begin))
        self.channel = CHANNEL.findall(self.bytes, begin)
        self.private = PRIVATE.findall(self.bytes, begin)
        room = ROOM.findall(self.bytes, begin)
        own = [it for it in room if not it.startswith(OF_ALL)]
        pongs = PONG.findall(self.bytes, begin)
        known = [*self.channel, *self.private, *own, *pongs]
        if len(to_all) + sum(map(len, known)) != len(self.bytes) - begin:
            others = {*known, *order.lines}
            raise Difference(f"{self.name} was told {[it for it in self.bytes[begin:].splitlines(True) if bytes(it) not in others][:5]}")
        numbers = (10, 11, 20, 21, 30, 31, 40, 41)
        self.has_left = len(pongs) == 6
        hold(f"answers to {self.name}", [f"#{it} PONG\n".encode() for it in numbers], pongs, self.has_left)
        order.check(self.name, to_all, self.has_left)
        self.sessions = self.sessions_of(room)

    def sessions_of(self, room):
        """The battles that it was in, each with its lines."""
        battle, found = None, []
        for line in room:
            word, _, rest = line.partition(b" ")
            if word in (b"OPENBATTLE", b"JOINBATTLE"):
                if battle is not None:
                    raise Difference(f"{self.name} is in two battles")
                battle = int(rest.split()[0])
                found.append((battle, []))
            if word in OF_ALL and int(rest.split()[0]) != battle:
                continue
            if battle is None:
                raise Difference(f"{self.name} is in no battle, and told {line}")
            found[-1][1].append(line)
            if word == b"BATTLECLOSED" or (word == b"LEFTBATTLE" and rest.split()[1].decode() == self.name):
                battle = None
        return found


def check_order(said, common):
    """The common order has each user's lines as it said them, and is a history that a lobby may have."""
    own, battles, inside = collections.defaultdict(list), {}, {}
    for line in common:
        words = line.decode().split()
        name = words[1]
        if words[0] == "BATTLEOPENED":
            name = words[4]
            battles[int(words[1])], inside[name] = [name], int(words[1])
        elif words[0] in ("JOINEDBATTLE", "LEFTBATTLE"):
            name = words[2]
            if (words[0] == "LEFTBATTLE") != (inside.get(name) == int(words[1])):
                raise Difference(f"{line} is told of one who is in battle {inside.get(name)}")
            join_or_leave(battles[int(words[1])], inside, words)
        elif words[0] == "BATTLECLOSED":
            name = said.founders[int(words[1])]
            for member in battles.pop(int(words[1])):
                del inside[member]
        elif words[0] == "REMOVEUSER" and name in inside:
            raise Difference(f"{name} is gone, and still in a battle")
        own[name].append(line)
    for name, wanted in said.to_all.items():
        check_own(said, name, wanted, own[name])
    return battles


def join_or_leave(members, inside, words):
    if words[0] == "LEFTBATTLE":
        members.remove(words[2])
        del inside[words[2]]
    else:
        members.append(words[2])
        inside[words[2]] = int(words[1])


def check_own(said, name, wanted, found):
    """What all are told of one user. One who left also left its battle, unless that was closed before."""
    if name in said.left:
        number = said.battle_of.get(name)
        if number and said.founders[number] == name:
            wanted = [*wanted, f"BATTLECLOSED {number}\n".encode()]
        elif number and not (said.founders[number] in said.left and found[-2:-1] == wanted[-1:]):
            wanted = [*wanted, f"LEFTBATTLE {number} {name}\n".encode()]
        wanted = [*wanted, f"REMOVEUSER {name}\n".encode()]
    hold(f"what all are told of {name}", wanted, found)


def check_bursts(said, heard, common):
    """Each log in shows the users that are there."""
    first, rest = heard[0], {it.name: it for it in heard[1:]}
    names = []
    for line in common:
        if not line.startswith(b"ADDUSER "):
            continue
        name = line.split()[1].decode()
        bisect.insort(names, name)
        one = rest.pop(name, first)
        shown = [said.accounts[it].arrival().splitlines(True) for it in names]
        lines = [f"ACCEPTED {name}\n", *(it[0] for it in shown), *(it[1] for it in shown if it[1:]), "LOGININFOEND\n"]
        if one.burst != GREETING + "".join(lines).encode():
            differ(f"the log in of {name}", [GREETING, *(it.encode() for it in lines)], one.burst.splitlines(True))
    if rest:
        raise Difference(f"{len(rest)} users were never there for the first")


def check_channels(said, heard):
    """Each member of a channel is told the same in the same order, and each speaker's lines stand as it said them."""
    members_of = {}
    channels = collections.defaultdict(list)
    for one in heard:
        channels[said.channel_of[one.name]].append(one)
    for channel, members in channels.items():
        order = members[0].channel
        names, bursts = fold_channel(channel, members[0].name, order)
        own = collections.defaultdict(list)
        for line in order:
            own[line.split()[2].decode()].append(line)
        for one in members:
            wanted = list(said.in_channel[channel, one.name])
            if one is not members[0]:
                wanted.insert(0, f"JOINED {channel} {one.name}\n".encode())
                at, lines = bursts[one.name]
                hold(f"{channel} as {one.name} is told", lines + order[at:], one.channel, one.has_left)
            else:
                wanted.insert(0, f"CLIENTS {channel} {one.name}\n".encode())
            if one.name in said.left:
                wanted.append(f"LEFT {channel} {one.name}\n".encode())
            hold(f"{channel} of {one.name}", wanted, own[one.name])
        members_of[channel] = names
    return members_of


def fold_channel(channel, first, order):
    """Who is in a channel at the end, and for each who joined, where that stands and what it was told at first."""
    names, bursts = [first], {}
    hold(channel, [f"JOIN {channel}\n".encode(), f"CLIENTS {channel} {first}\n".encode()], order[:2])
    order[:1] = []
    for at, line in enumerate(order):
        words = line.decode().split()
        if words[0] == "JOINED":
            names.append(words[2])
            lines = [f"JOIN {channel}\n"]
            lines += [f"CLIENTS {channel} {' '.join(names[it : it + 32])}\n" for it in range(0, len(names), 32)]
            bursts[words[2]] = (at + 1, [it.encode() for it in lines])
        elif words[0] == "LEFT":
            names.remove(words[2])
    return names, bursts


class Room:
    """A battle as its founder was told of it."""

    def __init__(self, said, number, order):
        self.number, self.order = number, order[2:]
        self.founder = said.founders[number]
        self.members = {self.founder: (0, 0)}
        self.entries = collections.defaultdict(list)
        hold("an opened battle", [f"OPENBATTLE {number}\n".encode(), b"REQUESTBATTLESTATUS\n"], order[:2])
        own = collections.defaultdict(list)
        for at, line in enumerate(self.order):
            words = line.decode().split()
            if words[0] == "JOINEDBATTLE":
                self.enter(said, words[2], at)
            elif words[0] == "LEFTBATTLE":
                del self.members[words[2]]
            elif words[0] == "CLIENTBATTLESTATUS":
                self.members[words[1]] = (int(words[2]), int(words[3]))
            if words[0] in ("CLIENTBATTLESTATUS", "SAIDBATTLE"):
                own[words[1]].append(line)
            elif words[0] in ("OPENBATTLE", "JOINBATTLE", "REQUESTBATTLESTATUS"):
                raise Difference(f"{self.founder} is told {line} in its battle")
        for (battle, name), wanted in said.in_room.items():
            if battle == number:
                hold(f"battle {number} of {name}", wanted, own.pop(name, []))
        if own:
            raise Difference(f"in battle {number} there were others: {list(own)}")

    def enter(self, said, name, at):
        """One enters: what it is told at first, and where in the order it goes on."""
        lines = [f"JOINBATTLE {self.number} {said.accounts[self.founder].number}\n", f"JOINEDBATTLE {self.number} {name}\n"]
        lines += [f"CLIENTBATTLESTATUS {it} {status} {colour}\n" for it, (status, colour) in self.members.items()]
        lines.append("REQUESTBATTLESTATUS\n")
        self.entries[name].append((at + 1, [it.encode() for it in lines]))
        self.members[name] = (0, 0)

    def check(self, one, lines, said):
        """A session of a member is the order, from where it entered to where it left."""
        at, first = self.entries[one.name].pop(0)
        last = f"LEFTBATTLE {self.number} {one.name}\n".encode()
        rest = self.order[at:]
        rest = rest[: rest.index(last) + 1] if last in rest else rest
        wanted = first + rest
        if self.founder in said.left:
            # The founder may not have read to the end of its battle.
            more = lines[len(wanted) :]
            lines = lines[: len(wanted)]
            if not all(it.startswith((b"LEFTBATTLE ", b"BATTLECLOSED ")) for it in more):
                raise Difference(f"{one.name} is told {more[:5]} at the end of battle {self.number}")
        hold(f"battle {self.number} as {one.name} is told", wanted, lines, one.has_left)


def check_rooms(said, heard):
    """Each member of a battle is told the same in the same order, and each one's lines stand as it said them."""
    first = {it.name: it.sessions[:1] for it in heard}
    rooms = {number: Room(said, *first[founder][0]) for number, founder in said.founders.items()}
    for one in heard:
        for number, lines in one.sessions:
            if rooms[number].founder != one.name:
                rooms[number].check(one, lines, said)
    for room in rooms.values():
        if any(room.entries.values()):
            raise Difference(f"of battle {room.number} some members were told nothing")
    return rooms


def check_private(said, heard):
    """What one says to another comes to both, in order, and to nobody else."""
    for one in heard:
        found = collections.defaultdict(list)
        for line in one.private:
            word, other, _ = line.decode().split(" ", 2)
            found[one.name, word, other].append(line)
        wanted = {key: lines for key, lines in said.private.items() if key[0] == one.name}
        if wanted != found:
            raise Difference(f"private talk of {one.name}: wanted {wanted}, found {dict(found)}")


def shown_to_all(said, common, battles):
    """The users and the battles that each client knows at the end, as view_show prints them."""
    statuses = {it.name: it.status() for it in said.accounts.values() if it.name not in said.left}
    for line in common:
        if line.startswith(b"CLIENTSTATUS "):
            name, status = line.decode().split()[1:]
            if name in statuses:
                statuses[name] = int(status)
    accounts = said.accounts
    lines = [f"user {it} {accounts[it].country} 0 {accounts[it].number} {statuses[it]}" for it in sorted(statuses)]
    for number, members in sorted(battles.items()):
        founder = said.founders[number]
        lines.append(f"battle {number} 0 0 {founder} {ADDRESS} 8452 8 0 123 0")
        lines += [f"  title Of {founder}", "  map Comet Catcher", "  game BA 9.46", "  engine Spring", "  version 104.0"]
        lines += [f"  member {it}" for it in members]
    return lines


def check_views(said, stayers, common, battles, channels, rooms):
    """What view_show makes of the bytes of each who stayed."""
    shower, to_all = program("VIEW_SHOW", "view_show"), shown_to_all(said, common, battles)

    def check_one(one):
        ran = subprocess.run([shower], input=bytes(one.bytes), stdout=subprocess.PIPE, timeout=60, check=True)
        channel = said.channel_of[one.name]
        wanted = [f"me {one.name}", *to_all, f"channel {channel}", *(f"  member {it}" for it in channels[channel])]
        number = said.battle_of.get(one.name)
        if number in battles:
            members = [(it, *rooms[number].members[it]) for it in battles[number]]
            wanted += [f"room {number}", *(f"  member {name} {status} {colour}" for name, status, colour in members)]
        hold(f"what {one.name} knows", wanted, ran.stdout.decode().splitlines())

    with concurrent.futures.ThreadPoolExecutor(os.cpu_count()) as pool:
        for _ in pool.map(check_one, stayers):
            pass


def compare(said, stayers, leavers):
    """Compares all that was told to those who were logged in; the first of those who stayed logged in first."""
    try:
        order = Order(said, stayers[0])
        heard = [Heard(peer, order) for peer in [*stayers, *leavers]]
        compare_all(said, order, heard, len(stayers))
    except (KeyError, ValueError, IndexError) as fault:
        raise Difference(f"a client was told a line that is none, or of one who is not there: {fault!r}") from fault


def compare_all(said, order, heard, staying):
    if {it.name for it in heard if it.has_left} != said.left:
        raise Difference("others have left than were to leave")
    # The first is told of its own arrival by its log in.
    common = said.accounts[heard[0].name].arrival().encode().splitlines(True) + order.lines
    battles = check_order(said, common)
    check_bursts(said, heard, common)
    channels = check_channels(said, heard)
    rooms = check_rooms(said, heard)
    check_private(said, heard)
    check_views(said, heard[:staying], common, battles, channels, rooms)
    print(f"           {len(heard)} clients were told {len(common)} lines with all others, in one order; {staying} views are the same")
