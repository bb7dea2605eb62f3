#!/usr/bin/env python3
"""pages.py [FOLDER] : makes the manual pages out of the sections of the documents, by pandoc, into FOLDER, or names
them.

A page's synopsis is the block of code behind its first heading; what stands before the next heading is its description,
and each heading further down is one of the page. Nothing stands here but each page's line of names and its files, whose
folders are those of $CONFIGURATION and $DOCUMENTS."""
import os
import re
import subprocess
import sys
from pathlib import Path

ROOT = Path(__file__).resolve().parent.parent
OPERATING, PROTOCOL = "docs/OPERATING.md", "docs/PROTOCOL.md"
GATEWAY, STATUS = "gateway/README.md", "python/STATUS.md"
CONFIGURATION = os.environ.get("CONFIGURATION", "/etc/rudderraisin")
DOCUMENTS = os.environ.get("DOCUMENTS", "/usr/share/doc/rudderraisin")
SETTINGS = (f"{CONFIGURATION}/lobby.toml", "the settings of the server; after a change: lobby_check, and a start")
ACCOUNTS = (f"{CONFIGURATION}/accounts.toml", "the accounts, which root and the server alone may read")
RECORDS = ("/var/lib/rudderraisin", "the records, where the settings name it, which root and the server alone may read")
DOCUMENT = (f"{DOCUMENTS}/OPERATING.md", "all that an operator has to know")
PROTOCOL_PAGE = (f"{DOCUMENTS}/PROTOCOL.md", "what a client sends and gets")
EXAMPLES = (f"{DOCUMENTS}/examples", "settings, accounts and scripts to start from")
GATEWAY_FILES = [(f"{CONFIGURATION}/gateway.conf", "the settings of the gateway"),
                 (f"{CONFIGURATION}/cert.pem, key.pem", "its certificate, and the key")]
# Each page: what it is in a line, the sections that it is made of, and files.
PAGES = {
    "rudderraisin.7": ("a lobby server for games on the Spring engine", [(OPERATING, "What you do by which command")],
                       [SETTINGS, ACCOUNTS, *GATEWAY_FILES, RECORDS, DOCUMENT, PROTOCOL_PAGE, EXAMPLES]),
    "lobby_main.1": ("serves a lobby, or makes the word of a password", [(OPERATING, "The program `lobby_main`")],
                     [SETTINGS, ACCOUNTS, RECORDS, DOCUMENT]),
    "lobby_check.1": ("looks at the files of a lobby before a start", [(OPERATING, "Before a start: `lobby_check`")],
                      [SETTINGS, ACCOUNTS]),
    "lobby_account.1": ("adds and changes accounts of a lobby", [(OPERATING, "To make an account")],
                        [ACCOUNTS, SETTINGS]),
    "lobby_record.1": ("reads what a lobby server records", [(OPERATING, "To read a record: `lobby_record`")],
                       [RECORDS, DOCUMENT]),
    "lobby_play.1": ("plays a script of a lobby and shows what each client gets",
                     [(OPERATING, "The program `lobby_play`"), (PROTOCOL, "7. Scripts of lobby_play")],
                     [RECORDS, EXAMPLES]),
    "view_show.1": ("shows what a client knows of a lobby by the bytes that it got",
                    [(OPERATING, "The program `view_show`")], [PROTOCOL_PAGE]),
    "lobby_settings.5": ("settings of a lobby", [(OPERATING, "Settings")], [SETTINGS, EXAMPLES]),
    "lobby_accounts.5": ("accounts of a lobby", [(OPERATING, "Accounts")], [ACCOUNTS, EXAMPLES]),
    "rudderraisin_gateway.1": ("lets SpringLobby use a lobby", [(GATEWAY, "A gateway for SpringLobby")], GATEWAY_FILES),
    "rudderraisin_gatewayctl.1": ("tells a gateway what to do", [(GATEWAY, "Control")], GATEWAY_FILES[:1]),
    "rudderraisin_status.1": ("serves a page of a lobby", [(STATUS, "A page of the lobby")],
                              [(f"{CONFIGURATION}/status.conf", "the options of the service"),
                               (f"{CONFIGURATION}/status.password", "the password, for root alone")]),
}
# A recipe of the repository, which who reads an installed page has not.
RECIPE = re.compile(r"`make [a-z]|\$ make ")


def section(file, heading):
    """What stands below a heading, up to the next one that is not deeper."""
    found = re.search(rf"(?ms)^(#+) {re.escape(heading)}\n(.*)", (ROOT / file).read_text(encoding="utf-8"))
    if not found:
        sys.exit(f"{file} has no heading: {heading}")
    return re.split(rf"(?m)^#{{1,{len(found[1])}}} ", found[2])[0]


def without_links(text):
    """The text with the words of its links alone, and without paragraphs that are nothing but links to definitions."""
    text = re.sub(r"(?m)^\((?:\[[^\]]*\]\([^)]*\)(?:, )?)+\)\n+", "", text)
    return re.sub(r"\[([^\]\n]*)\]\([^)\s]+\)", r"\1", text)


def entries(table):
    """A table of Markdown as pandoc's list of terms: of each row the first cell, and below it the others behind their
    columns' names."""
    first, _, *rows = [[cell.strip().replace("\\|", "|") for cell in re.split(r"(?<!\\)\|", it)[1:-1]]
                       for it in table[0].splitlines()]
    lines = []
    for term, *cells in rows:
        named = [it if len(cells) == 1 else f"{column}: {it}" for column, it in zip(first[1:], cells)]
        lines.append(f"{term}\n:   " + "\n\n    ".join(named) + "\n")
    return "\n".join(lines)


def page(name):
    """A page as Markdown for pandoc."""
    about, places, files = PAGES[name]
    title = name.partition(".")[0]
    parts = [f"# NAME\n\n{title} - {about}\n"]
    for file, heading in places:
        text = section(file, heading).lstrip("\n")
        synopsis = re.match(r"(?:    .*\n)+", text)
        if synopsis:
            parts.append(f"# SYNOPSIS\n\n{synopsis[0]}")
            text = text[synopsis.end():]
        parts.append("# DESCRIPTION\n" if file != PROTOCOL else "# SCRIPTS\n")
        parts.append(re.sub(r"(?m)^#+ (.+)$", lambda it: "# " + it[1].replace("`", "").upper(), text))
    others = ", ".join(f"**{it.partition('.')[0]}**({it[-1]})" for it in PAGES if it != name)
    parts.append("# FILES\n\n" + "\n".join(f"{file}\n:   {about}\n" for file, about in files))
    parts.append(f"# SEE ALSO\n\n{others}\n")
    text = without_links("\n".join(parts))
    if RECIPE.search(text):
        sys.exit(f"{name} names a recipe: {RECIPE.search(text)[0]}")
    return re.sub(r"(?m)(?:^\|.*\n)+", entries, text)


def main():
    if len(sys.argv) < 2:
        print("\n".join(PAGES))
        return
    folder = Path(sys.argv[1])
    folder.mkdir(parents=True, exist_ok=True)
    for name in PAGES:
        title, _, number = name.partition(".")
        words = ["pandoc", "-s", "-f", "markdown-smart-tex_math_dollars", "-t", "man", "-M", f"title={title.upper()}",
                 "-M", f"section={number}",
                 "-M", "footer=Rudderraisin", "-o", str(folder / name)]
        subprocess.run(words, input=page(name), text=True, check=True)


if __name__ == "__main__":
    main()
