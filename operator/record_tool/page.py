"""A story as one page of HTML. It has no script, fetches nothing, and what players wrote stands in it as text alone."""
import html
import re

from . import shown
from .room import LISTS
from .story import PRIVATE, REFUSALS, TALK, word_of

# What each command does. In braces is what stands behind its word: the first word, the others, all of them, or the title
# of a battle. Where none is there, the words before the braces are all that is said.
# Written by tools/protocol.py of protocol/commands.toml: deeds.
DEEDS = {
    "LOGIN": "logs in as {first}",
    "PING": "pings",
    "EXIT": "logs out",
    "MYSTATUS": "sets the own status",
    "CHANNELS": "asks for the channels",
    "JOIN": "enters channel {rest}",
    "LEAVE": "leaves channel {rest}",
    "SAY": "says in channel {first}: {others}",
    "SAYEX": "does in channel {first}: {others}",
    "SAYPRIVATE": "says in private to {first}: {others}",
    "OPENBATTLE": "opens a battle: {title}",
    "JOINBATTLE": "enters, or asks to enter, battle {first}",
    "JOINBATTLEACCEPT": "lets in {rest}",
    "JOINBATTLEDENY": "turns away {first}: {others}",
    "LEAVEBATTLE": "leaves the battle",
    "UPDATEBATTLEINFO": "changes what all are told of the battle",
    "MYBATTLESTATUS": "sets the own battle status",
    "SAYBATTLE": "says: {rest}",
    "SAYBATTLEEX": "does: {rest}",
    "ADDBOT": "adds a bot {first}",
    "UPDATEBOT": "changes the bot {first}",
    "REMOVEBOT": "takes away the bot {rest}",
    "ADDSTARTRECT": "sets the start rectangle of ally team {rest}",
    "REMOVESTARTRECT": "takes away the start rectangle of ally team {rest}",
    "SETSCRIPTTAGS": "sets script tags {rest}",
    "REMOVESCRIPTTAGS": "takes away script tags {rest}",
    "DISABLEUNITS": "disables units {rest}",
    "ENABLEUNITS": "enables units {rest}",
    "ENABLEALLUNITS": "enables all units",
    "HANDICAP": "sets the handicap of {first} to {others}",
    "FORCETEAMNO": "sets the team of {first} to {others}",
    "FORCEALLYNO": "sets the ally team of {first} to {others}",
    "FORCETEAMCOLOR": "sets the colour of {first}",
    "FORCESPECTATORMODE": "makes a spectator of {rest}",
    "KICKFROMBATTLE": "kicks {rest}",
    "RING": "rings {rest}",
}
# End of what is written: deeds.
# A list that has more is shown where it changed; elsewhere a link leads there.
LONG = 12
# The most lines that the player was told at one place which a page shows.
TOLD = 60
TAB = b"\t"
POLICY = "default-src 'none'; style-src 'unsafe-inline'"
STYLE = """
:root { font: 16px/1.45 system-ui, "DejaVu Sans", sans-serif; color: #1c1f23; background: #f6f7f8; }
body { max-width: 62rem; margin: 0 auto; padding: 1rem; }
h1 { font-size: 1.5rem; margin: .2rem 0; } h2 { font-size: 1.2rem; margin: 2rem 0 .3rem; }
h3 { font-size: 1rem; margin: .8rem 0 .2rem; }
p { margin: .3rem 0; } .about { color: #4a5058; } a { color: inherit; }
bdi, code { overflow-wrap: anywhere; } code, pre { font: .88em/1.4 ui-monospace, "DejaVu Sans Mono", monospace; }
.choice { position: sticky; top: 0; z-index: 1; background: #f6f7f8; padding: .5rem 0; margin: .6rem 0;
  border-bottom: 1px solid #cfd4da; }
.choice label { margin-right: 1.1rem; white-space: nowrap; }
body:has(#rooms:not(:checked)) .room, body:has(#talk:not(:checked)) .talk,
body:has(#own:not(:checked)) .own { display: none; }
ol { list-style: none; padding: 0; margin: 0; }
li.at { display: grid; grid-template-columns: 9.5rem 1fr; gap: 0 1rem; padding: .55rem .7rem; margin: .35rem 0;
  background: #fff; border-left: 4px solid #cfd4da; border-radius: 4px; scroll-margin-top: 3.5rem; }
li.room { border-left-color: #2f6fb3; } li.talk { border-left-color: #9aa3ad; }
li.refused { border-left-color: #b3541e; }
li.at > div { min-width: 0; } li.at:target { outline: 2px solid #2f6fb3; }
.when { color: #4a5058; font-variant-numeric: tabular-nums; } .when a { display: block; text-decoration: none; white-space: nowrap; }
.colour { white-space: nowrap; }
.changes { padding-left: 0; list-style: none; margin: .25rem 0; } .changes li { margin: .1rem 0; }
.came::before { content: "+ "; color: #1d7a3a; font-weight: 700; }
.gone::before { content: "\\2212  "; color: #b01c1c; font-weight: 700; }
.is::before { content: "~ "; color: #7a5b00; font-weight: 700; }
.gone bdi.name { text-decoration: line-through; } .old { color: #6a7079; text-decoration: line-through; }
.refusal { color: #8f3f12; } .key { color: #4a5058; }
.shade { display: inline-block; width: .8em; height: .8em; border: 1px solid #555;
  vertical-align: -.05em; margin-right: .25em; }
details { margin: .25rem 0; } summary { cursor: pointer; color: #2f5f94; }
td bdi { overflow-wrap: break-word; } td { max-width: 24rem; }
.before { padding: .1rem .7rem .55rem; background: #fff; border-radius: 4px; }
.wide { overflow-x: auto; } table { border-collapse: collapse; font-size: .9rem; }
th, td { text-align: left; padding: .15rem .8rem .15rem 0; vertical-align: top; }
th { font-weight: 600; color: #4a5058; white-space: nowrap; }
tr.new td { background: #e9f6ec; } tr.other td { background: #fdf5dc; }
pre { white-space: pre-wrap; overflow-wrap: anywhere; background: #f1f3f5;
  padding: .5rem; margin: .3rem 0; border-radius: 4px; }
@media (max-width: 40rem) { body { padding: .5rem; }
  li.at { grid-template-columns: 1fr; } .when { font-size: .88rem; } .when a { display: inline; } }
@media print { .choice { display: none; } }
"""


def name(data):
    """What players chose, apart from the text around it, whose direction it cannot turn."""
    return f'<bdi class="name">{html.escape(shown.text(data))}</bdi>'


def said(data):
    return f"<bdi>{html.escape(shown.text(data))}</bdi>"


def value(key, it):
    if key == "colour":
        square = f'<span class="shade" style="background:{it}"></span>' if re.fullmatch("#[0-9a-f]{6}", it) else ""
        return f'<span class="colour">{square}{html.escape(it)}</span>'
    return said(it) if isinstance(it, bytes) else html.escape(str(it))


def deed(word, rest):
    """What a command with this behind it does."""
    words = DEEDS[word]
    first, _, others = rest.partition(b" ")
    sentences = rest.split(TAB)
    if not rest or ("{title}" in words and not sentences[4:]):
        return re.sub(r":? \{.*", "", words)
    return words.format(first=name(first), others=said(others), rest=said(rest), title=said(b"".join(sentences[3:4])))


class Page:
    """The page of some stories of one session each."""

    def __init__(self, about):
        self.about, self.parts, self.places = about, [], {}

    def who(self, story, it):
        session = story.sessions.get(it.line.client)
        if session is not None and session.name is not None and session.login <= it.place:
            return f"<b>{name(session.name)}</b>"
        return f"<b>client {it.line.client}</b>" + (f" of {html.escape(session.address)}" if session else "")

    def deed(self, story, it):
        """Who did what."""
        command, rest = it.line.command()
        word, actor = command.decode("ascii", "replace"), self.who(story, it)
        if it.line.verb != b"send":
            return f"{actor} {'connects' if it.line.verb == b'open' else 'is gone: the connection ended'}"
        if word not in DEEDS or (word == "JOIN" and rest in (b"", b"?")):
            return f"{actor} sends a line that is no command"
        return f"{actor} {deed(word, shown.without_secrets(command, rest))}"

    def change(self, it):
        """One thing that came, went or is another."""
        kind, word, what, fields = it
        if kind == "is":
            words = [f'<span class="key">{html.escape(key)}</span> <span class="old">{value(key, old)}</span> &rarr; '
                     f'{value(key, new)}'
                     for key, old, new in fields]
        elif kind == "gone":
            words = [f'<span class="key">{html.escape(key)}</span> {value(key, old)}' for key, old, _ in fields]
        else:
            words = [f'<span class="key">{html.escape(key)}</span> {value(key, new)}' for key, _, new in fields]
        about = f"{word} {name(what)}" if word != "battle" else "battle"
        return f'<li class="{kind}">{about}' + (f": {', '.join(words)}" if words else "") + "</li>"

    def table(self, things, news):
        """A list of a room, with what is new in it."""
        keys = [*dict.fromkeys(key for fields in things.values() for key in fields)]
        head = "".join(f"<th>{html.escape(it)}</th>" for it in ["", *keys])
        rows = []
        for it, fields in things.items():
            cells = "".join(f"<td>{value(key, fields.get(key, ''))}</td>" for key in keys)
            rows.append(f'<tr{news.get(it, "")}><td>{name(it)}</td>{cells}</tr>')
        return f'<div class="wide"><table><tr>{head}</tr>{"".join(rows)}</table></div>'

    def room(self, room, found, anchor, is_open):
        """A whole room, as it was at a place."""
        parts = []
        told = "".join(f"<tr><th>{html.escape(key)}</th><td>{value(key, it)}</td></tr>"
                       for key, it in room.battle.items())
        parts.append(f'<h3>battle {room.number}</h3><div class="wide"><table>{told}</table></div>')
        for key, word in LISTS.items():
            things = room.lists[key]
            shown_at = self.places.get(key)
            is_new = any(it[1] == word for it in found)
            if not things:
                parts.append(f"<h3>{word}s: none</h3>")
            elif len(things) > LONG and shown_at and not is_new and not is_open:
                parts.append(f'<h3>{word}s: {len(things)}, <a href="#{shown_at[0]}">as at place {shown_at[1]}</a></h3>')
            else:
                news = {it[2]: ' class="new"' if it[0] == "came" else ' class="other"' for it in found if it[1] == word}
                parts.append(f"<h3>{word}s: {len(things)}</h3>{self.table(things, news)}")
                self.places[key] = anchor
        return f"<details{' open' if is_open else ''}><summary>The room then</summary>{''.join(parts)}</details>"

    def happening(self, story, it, number):
        """An item of the list."""
        words = it.words()
        kinds = ["at"]
        kinds += ["room"] if it.is_room else ["talk"] if words & (TALK | PRIVATE) else ["own"]
        refusals = [told for told in it.told if word_of(told) in REFUSALS]
        kinds += ["refused"] if refusals else []
        anchor = f"p{number}-{it.place}"
        is_own = it.line.client == story.session.client
        mark = '<span class="refusal">refused:</span> ' if refusals and is_own else ""
        parts = [f"<p>{mark}{self.deed(story, it)}</p>"]
        parts += [f'<p class="refusal">The player is told: {said(re.sub(rb"^#[0-9]+ ", b"", told))}</p>'
                  for told in refusals]
        if it.has_left:
            parts.append("<p>The player is in no room any more.</p>")
        if it.changes:
            parts.append(f'<ul class="changes">{"".join(map(self.change, it.changes))}</ul>')
        if it.room and (it.changes or it.has_entered):
            parts.append(self.room(it.room, it.changes, (anchor, it.place), it.has_entered))
        if it.told:
            more = f"\n.. and {len(it.told) - TOLD} more lines" if len(it.told) > TOLD else ""
            lines = "\n".join(html.escape(shown.text(masked(told))) for told in it.told[:TOLD])
            parts.append(f"<details><summary>{len(it.told)} line{'s' if len(it.told) != 1 else ''} told to the "
                         f"player</summary>"
                         f"<pre>{lines}{more}</pre></details>")
        time = html.escape(story.record.times.shown(it.place, "%H:%M:%S"))
        when = f'<div class="when">{time} <a href="#{anchor}">place {it.place}</a></div>'
        return f'<li class="{" ".join(kinds)}" id="{anchor}">{when}<div>{"".join(parts)}</div></li>'

    def add(self, story):
        """Adds a story."""
        number = len(self.parts)
        self.places = {}
        session = story.session
        who = name(session.name) if session.name is not None else f"client {session.client}"
        times = [story.record.times.shown(it) for it in (story.begin, story.end - 1)]
        when = f", {html.escape(times[0])} to {html.escape(times[1])}" if all(times) else ""
        about = (f"client {session.client} from {html.escape(session.address)}, record "
                 f"{html.escape(shown.text(str(story.record.folder)))}, "
                 f"places {story.begin} to {story.end - 1}{when}")
        left = []
        if story.of_others:
            left.append(f"{story.of_others} at which the player was told of other users and battles alone")
        left += [f"{story.private} with private talk (<code>--private</code> shows it)"] if story.private else []
        out = f'<p class="about">Places left out: {", ".join(left)}.</p>' if left else ""
        start = ""
        if story.start:
            room = self.room(story.start, [], (f"s{number}", story.begin), True)
            start = f'<div class="before"><p>Before the first of these places:</p>{room}</div>'
        items = "\n".join(self.happening(story, it, number)
                          for it in story.happenings) or "<li>Nothing happened to this player then.</li>"
        self.parts.append(f'<section id="s{number}"><h2>{who}</h2><p '
                          f'class="about">{about}.</p>{out}{start}<ol>{items}</ol></section>')

    def text(self):
        boxes = "".join(f'<label><input type="checkbox" id="{key}" checked> {words}</label>' for key, words in (
            ("rooms", "the room"), ("talk", "talk"), ("own", "the rest")))
        contents = "".join(f"<p class=\"about\">{it}</p>" for it in self.about)
        return (f'<!DOCTYPE html>\n<html lang="en"><head><meta charset="utf-8"><meta '
                f'http-equiv="Content-Security-Policy" content="{POLICY}">'
                f'<meta name="viewport" content="width=device-width, initial-scale=1"><title>A player\'s '
                f'room</title><style>{STYLE}</style></head>\n'
                f'<body><h1>A player\'s room, place by place</h1>{contents}<div '
                f'class="choice">{boxes}</div>\n{"".join(self.parts)}\n</body></html>\n')


def masked(told):
    """A line that was put, without the script password that only a founder is told."""
    return re.sub(rb"^((?:#[0-9]+ )?JOINEDBATTLE [0-9]+ [^ ]+ ).*", rb"\1*", told)
