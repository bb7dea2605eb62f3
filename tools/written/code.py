"""What is written into the code of the crates: enums, words, rows and counts."""
from .layout import WIDTH, comment, literal, packed
from .lines import parted, printed, values
from .table import FAULTS

# The variants that the enum of commands has before the others, which follow by number.
DECLARED_FIRST = ["LOGIN", "PING", "CHANNELS", "LEAVEBATTLE", "EXIT"]
# The lines of the tests without arguments stand first.
TRIED_FIRST = ["PING", "CHANNELS", "LEAVEBATTLE", "EXIT", "LOGIN"]
# Of the tests' lines with a fault those of these commands stand behind the others.
FAULTS_LAST = ["JOINBATTLEACCEPT", "JOINBATTLEDENY", "DISABLEUNITS", "ENABLEUNITS"]
# The lines of these stand with their faults in command_grammar/proofs/Examples.antt, and no test has them.
FAULTS_PROVED = ["LOGIN", "LEAVE", "SAYEX", "SAYPRIVATE", "OPENBATTLE", "JOINBATTLE", "UPDATEBATTLEINFO",
                 "MYBATTLESTATUS", "SAYBATTLE", "SAYBATTLEEX", "ADDBOT", "UPDATEBOT", "REMOVEBOT", "ADDSTARTRECT",
                 "HANDICAP", "FORCETEAMNO", "FORCEALLYNO", "FORCETEAMCOLOR", "FORCESPECTATORMODE", "KICKFROMBATTLE",
                 "RING"]
NO_COMMANDS = ["ping", "#9", "#2147483648 PING"]
# Of these the tests print only the lines behind the first. Blank lines stand before all, and two texts behind all.
PRINTED_OTHERWISE = ["LEAVE", "OPENBATTLE", "JOINBATTLE", "JOINBATTLEDENY", "ADDSTARTRECT", "REMOVESTARTRECT",
                     "REMOVESCRIPTTAGS", "HANDICAP", "RING"]
BLANK = [("", ""), ("  #7  ", "#7 ")]
TEXTS = ["SAYBATTLE \xc3\xa4\xff\0", "SAYPRIVATE Bert "]
# The commands that the tests name first; a function of its own names the others.
NAMED_FIRST = ["PING", "CHANNELS", "EXIT", "LOGIN", "MYSTATUS", "JOIN", "LEAVE", "SAY", "SAYEX", "SAYPRIVATE",
               "OPENBATTLE", "JOINBATTLE", "LEAVEBATTLE", "SAYBATTLE", "SAYBATTLEEX", "RING"]
# The replies with which the arms of the library's table begin; a new row is behind them, and no arguments come last.
ARMS = ["TASSERVER", "ADDUSER", "CLIENTSTATUS", "DENIED", "ACCEPTED", "CLIENTS", "JOINED", "SAID", "JOINFAILED",
        "BATTLEOPENED", "OPENBATTLE", "JOINBATTLE", "JOINBATTLEREQUEST", "JOINEDBATTLE"]
LIBRARY_KINDS = {
    "word": "Word", "name": "Name", "u32": "Status", "wide": "Wide", "0..65535": "Port", "sentence": "Sentence",
    "text": "Text", "words": "Words", "names": "Names", "pairs": "Pairs", "1..2147483647": "Battle",
}
REPLY_TYPES = {
    "word": "Word<'a>", "name": "Name<'a>", "u32": "u32", "wide": "Wide", "0..65535": "u16", "sentence": "Sentence<'a>",
    "text": "Text<'a>", "words": "Words<'a>", "names": "Names<'a>", "pairs": "Pairs<'a>",
    "1..2147483647": "BattleNumber",
}
COMMAND_TYPES = {
    "word": "WordBuf", "name": "NameBuf", "u32": "u32", "wide": "i64", "sentence": "SentenceBuf", "text": "TextBuf",
    "words": "WordList", "pairs": "PairList", "flags": "bool",
}
COMMAND_KINDS = {
    "word": "Word", "name": "Name", "u32": "Natural(4294967295)", "wide": "Wide", "sentence": "Sentence",
    "text": "Text", "words": "Words", "pairs": "Pairs", "flags": "LoginFlags",
}


def first_of(words, lines):
    """The lines of these words, and then the others."""
    return sorted(lines, key=lambda it: words.index(it.word) if it.word in words else len(words))


def reply_type(it):
    """The type of a field of a reply."""
    if it.is_yes_or_no:
        return "bool"
    if it.name in ("country", "userCount"):
        return {"country": "Country<'a>", "userCount": "usize"}[it.name]
    made = REPLY_TYPES.get(it.kind) or f"UpTo<{it.bounds[1]}>"
    return f"Option<{made}>" if it.is_optional else made


def reply_fields(reply):
    """The fields of a reply with their types."""
    if reply.has_rest:
        return [("battle", "BattleNumber"), ("opened", "Opened<'a>")]
    return [(it.snake, reply_type(it)) for it in reply.kept]


def reply_words(tables):
    return [f"    {it.variant}," for it in tables.replies.numbered()]


def reply_texts(tables):
    return [f'            CommandWord::{it.variant} => b"{it.word}",' for it in tables.replies.numbered()]


def variant(name, fields):
    """A variant of an enum, a line for each field."""
    if not fields:
        return [f"    {name},"]
    return [f"    {name} {{", *(f"        {field}: {of}," for field, of in fields), "    },"]


def reply_variants(tables):
    lines = []
    for it in tables.replies.numbered():
        lines += [f"    /// `{it.word}`. {it.note}", *variant(it.variant, reply_fields(it))]
    return lines


def reply_drop(tables):
    """The arms of the drop, as many a line as it has room for."""
    parts = []
    for it in tables.replies.numbered():
        fields = ", ".join(f"{name}: _" for name, _ in reply_fields(it))
        parts.append(f" | Reply::{it.variant}" + (f" {{ {fields} }}" if fields else ""))
    parts[0] = parts[0].removeprefix(" | ")
    pad = " " * 12
    return packed([*parts[:-1], parts[-1] + " => {}"], pad, 112)


def reply_rows(tables):
    lines = []
    for it in tables.replies.numbered():
        names = ("; " if it.has_rest else ", ").join(name for name, _ in reply_fields(it))
        lines.append(f"            {it.variant} " + (f"{{ {names} }}" if names else "{}"))
    return lines


def reply_count(tables):
    return [f"const ALL: [CommandWord; {len(tables.replies.lines)}] = with_replies!(words_of_rows());"]


def command_type(it):
    """The type of a field of a command."""
    if it.is_yes_or_no:
        return "bool"
    if it.kind in COMMAND_TYPES:
        made = COMMAND_TYPES[it.kind]
        return f"Option<{made}>" if it.is_optional else made
    high = it.bounds[1]
    return "u8" if high < 1 << 8 else "u16" if high < 1 << 16 else "u32"


def command_kind(it):
    """The kind of a field in the macro that has the table of commands."""
    if it.is_yes_or_no:
        return "Flag"
    made = COMMAND_KINDS.get(it.kind) or f"Natural({it.bounds[1]})"
    return f"Optional{made}" if it.is_optional else made


def command_variants(tables):
    lines = []
    for it in first_of(DECLARED_FIRST, tables.commands.numbered()):
        for text in (f"`{it.usage}`" + (f": {it.note}" if it.note else "")).split("\n"):
            lines += comment("    /// ", text, 108)
        lines += variant(it.variant, [(of.snake, command_type(of)) for of in it.kept])
    return lines


def command_row(it):
    """A row of the macro: in one line where it has room."""
    fields = [f"{of.snake}: {command_kind(of)}" for of in it.kept]
    begin, form = f'                {it.variant} b"{it.word}" {{', f" => {it.reader}" if it.reader else ""
    whole = begin + (f" {', '.join(fields)} " if fields else "") + "}" + form
    if len(whole) < WIDTH:
        return [whole]
    pad = " " * 20
    parts = [f" {of}" + ("," if at + 1 < len(fields) else "") for at, of in enumerate(fields)]
    inside = packed(parts, pad)
    return [begin, *inside, "                }" + form]


def command_rows(tables):
    lines, part = [], None
    for it in tables.commands.numbered():
        if it.part != part:
            lines += ([] if part is None else ["            }"]) + [f"            {it.part} {{"]
            part = it.part
        lines += command_row(it)
    return [*lines, "            }"]


def command_count(tables):
    return ["/// The requests in the order of their numbers, from 1 on.",
            f"static REQUESTS: [RequestRow; {len(tables.commands.lines)}] = with_commands!(rows_of_commands());"]


def good_lines(tables):
    lines = [it.good[0] for it in first_of(TRIED_FIRST, tables.commands.numbered())]
    return [f"static GOOD_LINES: [&[u8]; {len(lines)}] = [", *(f"    {literal(it)}," for it in lines), "];"]


def good_replies(tables):
    lines = [line for it in tables.replies.lines for line in it.good]
    return [f"static LINES: [&[u8]; {len(lines)}] = [", *(f"    {literal(it)}," for it in lines), "];"]


def bad_replies(tables):
    lines = [line for it in tables.replies.lines for line in it.bad]
    return [f"static BAD_LINES: [&[u8]; {len(lines)}] = [", *(f"    {literal(it)}," for it in lines), "];"]


def library_kinds(reply):
    """The kinds of a reply's arguments in the library's table."""
    kinds = []
    for it in reply.kept:
        made = "Flag" if it.is_yes_or_no else LIBRARY_KINDS.get(it.kind) or f"Small({it.bounds[1]})"
        made = f"Optional{made}" if it.is_optional else made
        kinds.append("NextSentence" if made == "Sentence" and kinds and kinds[-1].endswith("Sentence") else made)
    return tuple(kinds)


def arm_order(arm):
    """Where an arm stands: by ARMS, then others by number, and without arguments last."""
    kinds, replies = arm
    return not kinds, next((ARMS.index(it.word) for it in replies if it.word in ARMS), len(ARMS)), replies[0].number


def library_arms(tables):
    """An arm for each row of kinds, with all replies that have it."""
    rows = {}
    for it in tables.replies.numbered():
        rows.setdefault(library_kinds(it), []).append(it)
    lines, pad = [], " " * 8
    for kinds, replies in sorted(rows.items(), key=arm_order):
        parts = [f" | CommandWord::{it.variant}" for it in replies]
        parts[0] = parts[0].removeprefix(" | ")
        whole = f" => &[{', '.join(kinds)}],"
        if len(pad + parts[0] + whole) <= WIDTH:
            lines += packed([*parts[:-1], parts[-1] + whole], pad)
        else:
            first = next(at for at, it in enumerate(kinds) if it == "Sentence")
            inside = [f"{pad}    {', '.join(some)}," for some in (kinds[:first], kinds[first:])]
            lines += [f"{pad}{parts[0]} => &[", *inside, f"{pad}],"]
    return lines


def bad_lines(tables):
    """The lines with a fault, by faults."""
    found = [(line, "unknown command") for line in NO_COMMANDS]
    tried = [it for it in tables.commands.numbered() if it.word not in FAULTS_PROVED]
    last = sorted(tried, key=lambda it: it.word in FAULTS_LAST)
    found += sorted((bad for it in last for bad in it.bad), key=lambda bad: FAULTS.index(bad[1]))
    rows = [row for line, fault in found for row in pair(literal(line), f"ReadFault::{fault.title().replace(' ', '')}")]
    return [f"static FAULTS: [(&[u8], ReadFault); {len(found)}] = [", *rows, "];"]


def pair(one, other):
    """An entry of two, as `rt fmt` lays it out."""
    if len(f"{one}, {other}") <= 60:
        return [f"    ({one}, {other}),"]
    return ["    (", f"        {one},", f"        {other},", "    ),"]


def printed_lines(tables):
    """Lines of commands, each with the line that it prints as."""
    found = list(BLANK)
    for it in first_of(TRIED_FIRST, tables.commands.numbered()):
        found += [(line, printed_as(it, line)) for line in it.good[it.word in PRINTED_OTHERWISE:]]
    found += [(line, line) for line in TEXTS]
    rows = [row for one, other in found for row in pair(literal(one), literal(other))]
    return [f"static PRINTED_LINES: [(&[u8], &[u8]); {len(found)}] = [", *rows, "];"]


def printed_as(it, line):
    """The line that a command's line prints as."""
    number, word, rest = parted(line)
    return ("" if number is None else f"#{number} ") + word + printed(it.kept, values(it.kept, rest))


def tested_word(it):
    return f"        Command::{it.variant}{' { .. }' if it.kept else ''} => {literal(it.word)},"


def tested_words(tables):
    named = first_of(NAMED_FIRST, tables.commands.numbered())
    return [tested_word(it) for it in named if it.word in NAMED_FIRST]


def other_tested_words(tables):
    return [tested_word(it) for it in tables.commands.numbered() if it.word not in NAMED_FIRST]
