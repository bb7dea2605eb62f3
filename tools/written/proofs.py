"""What is written into proofs: answers that have one shape for all commands or all replies."""
from .definitions import LETTERS, PARTS


def answer(name, given):
    """The answer to a goal."""
    return [f"pub {name} : goal.{name}", f"{name} c = {given}", ""]


def replies_printed(tables):
    """Of each reply that its line is appended, and then that memory is refused only where room lacks. PONG needs no
    answer."""
    lines, replies = [], tables.replies.numbered()
    for clause in ("ok", "wanted"):
        for it in sorted(replies, key=lambda it: it.has_rest):
            call = "put_line" if it.number == 1 else f"put_line-in-{it.variant}"
            if it.word != "PONG":
                goal = f"returns-in-{it.variant}-clause-{clause}"
                lines += answer(goal, f"rw (c.in-{it.variant}.is) c.{call}.ensures.{clause}")
    return lines[:-1]


def replies_read(tables):
    """Of each reply that what was read is its arguments, and that nothing else is refused. The calls are counted from
    the second on."""
    lines = []
    for it in tables.replies.numbered():
        call = "" if it.number == 1 else "-read_all" if it.number == 2 else f"-read_all-{it.number - 1}"
        command = f"c.args.command command.{it.variant} c.args.bytes.now"
        lines += [f"-- {it.variant}", ""]
        lines += answer(f"returns-in-Ok{call}",
                        f"reads_as {command} _ _ c.in-{it.variant}.is c.in-Ok{call}.ensures refl")
        lines += answer(f"returns-in-Err{call}",
                        f"fails_as {command} c.in-Err{call}.error c.in-{it.variant}.is c.in-Err{call}.ensures")
    return lines[:-1]


def word_ends(tables):
    """Behind the word of a reply is its end, or a space that begins its list; of any other the first argument
    computes."""
    lines = ["-- what follows the command word is the end or a space, and no command word begins with `#`",
             "ends_word : (c : CommandWord) (xs : Values (kinds_of c)) → Ends 32 (all_printed (kinds_of c) xs)"]
    for it in tables.replies.numbered():
        if not it.kept:
            lines.append(f"ends_word command.{it.variant} xs = tt")
        elif it.kept[0].is_list:
            lines.append(f"ends_word command.{it.variant} xs = opens {it.kept[0].kind.title()} xs.0 [] tt refl")
    return [*lines, "ends_word c xs = refl"]


def word_named(tables):
    """The words of commands, by the parts of the table as its definition has them."""
    lines = ["-- the word of each command; of a line that was not read there is none",
             "abbrev pub word_named : Command → Option (List ℕ)",
             "word_named command.Blank = Some []", "word_named (command.Unread fault) = None"]
    for part in reversed(PARTS):
        for it in tables.commands.numbered():
            letters = " ".join(LETTERS[: len(it.kept)])
            made = f"(command.{it.variant} {letters})" if letters else f"command.{it.variant}"
            if it.part == part:
                lines.append(f'word_named {made} = Some (codes "{it.word}")')
    return lines


def requests_printed(tables):
    lines = []
    for it in tables.commands.numbered():
        lines += answer(f"returns-in-{it.variant}-clause-wanted", f"c.print_row-in-{it.variant}.ensures.wanted")
    return lines[:-1]
