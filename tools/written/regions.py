"""All regions that are written, by file."""
from . import checks, code, definitions, package, page, proofs, record_tool
from .fences import Region


def joined(*parts):
    """What several write, with an empty line between them."""
    def lines(tables):
        found = []
        for part in parts:
            found += [*part(tables), ""]
        return found[:-1]
    return lines


REGIONS = [
    Region("crates/reply_kinds/src/command_word.rt", "variants", "replies", code.reply_words, 4),
    Region("crates/reply_kinds/src/command_word.rt", "words", "replies", code.reply_texts, 12),
    Region("crates/reply_kinds/src/lib.rt", "variants", "replies", code.reply_variants, 4),
    Region("crates/reply_kinds/src/lib.rt", "drop", "replies", code.reply_drop, 12),
    Region("crates/reply_kinds/specs/Replies.antt", "the table", "replies",
           joined(definitions.word_of, definitions.kinds_of, definitions.command_of, definitions.values_of)),
    Region("crates/reply_printer/src/reply_table.rt", "rows", "replies", code.reply_rows, 12),
    Region("crates/reply_printer/proofs/printing/put_reply/Answers.antt", "answers", "replies", proofs.replies_printed),
    Region("crates/reply_grammar/specs/Lines.antt", "command words", "replies", definitions.commands),
    Region("crates/reply_grammar/specs/Lines.antt", "replies of values", "replies", definitions.reply_of_values),
    Region("crates/reply_grammar/src/command_words.rt", "count", "replies", code.reply_count),
    Region("crates/reply_grammar/proofs/Whole.antt", "ends of words", "replies", proofs.word_ends),
    Region("crates/reply_grammar/proofs/reading/arguments/Answers.antt", "answers", "replies", proofs.replies_read),
    Region("crates/command_grammar/src/command.rt", "variants", "commands", code.command_variants, 4),
    Region("crates/command_grammar/src/command.rt", "rows", "commands", code.command_rows, 12),
    Region("crates/command_grammar/specs/Table.antt", "entries", "commands", definitions.entries),
    Region("crates/command_grammar/specs/Table.antt", "arguments", "commands", definitions.arguments_of),
    Region("crates/request_printer/proofs/Named.antt", "words", "commands", proofs.word_named),
    Region("crates/request_printer/proofs/printing/print_command/Answers.antt", "answers", "commands",
           proofs.requests_printed),
    Region("crates/lobby_lines/src/request_table.rt", "count", "commands", code.command_count),
    Region("crates/leaf_tests/src/requests.rt", "good lines", "commands", code.good_lines),
    Region("crates/leaf_tests/src/requests.rt", "bad lines", "commands", code.bad_lines),
    Region("crates/leaf_tests/src/requests.rt", "printed lines", "commands", code.printed_lines),
    Region("crates/leaf_tests/src/requests.rt", "words", "commands", code.tested_words, 8),
    Region("crates/leaf_tests/src/requests.rt", "other words", "commands", code.other_tested_words, 8),
    Region("crates/lobby_lines/src/reply_table.rt", "kinds", "replies", code.library_arms, 8),
    Region("crates/leaf_tests/src/replies.rt", "good lines", "replies", code.good_replies),
    Region("crates/leaf_tests/src/replies.rt", "bad lines", "replies", code.bad_replies),
    Region("include/lobby.h", "kinds of replies", "replies", package.header_replies, 4),
    Region("include/lobby.h", "kinds of requests", "commands", package.header_requests, 4),
    Region("python/rudderraisin/reply.py", "classes", "replies", package.reply_classes),
    Region("python/rudderraisin/request.py", "classes", "commands", package.request_classes),
    Region("python/rudderraisin/client.py", "refusals", "replies", package.refusals),
    Region("python/rudderraisin/page/observer.py", "what all are told", "replies", package.told_to_all),
    Region("operator/record_tool/page.py", "deeds", "commands", record_tool.deeds),
    Region("operator/record_tool/commands.py", "who is named", "commands", record_tool.naming),
    Region("operator/record_tool/story.py", "what lines tell of", "replies", record_tool.told),
    Region("docs/PROTOCOL.md", "commands", "commands", page.commands),
    Region("docs/PROTOCOL.md", "replies", "replies", page.replies),
    Region("python/tests/test_reply.py", "lines", "replies", checks.tested_replies),
    Region("python/tests/test_reply.py", "no replies", "replies", checks.tested_no_replies),
    Region("python/tests/test_request.py", "lines", "commands", checks.tested_requests),
    Region("checks/hostile.py", "words", "commands", checks.hostile_words),
    Region("checks/python_sessions.py", "weights", "commands", checks.session_weights),
    Region("checks/python_views.py", "lines", "replies", checks.view_lines),
    Region("checks/lines_wanted.py", "replies", "replies", checks.library_replies),
    Region("checks/lines_wanted.py", "no replies", "replies", checks.no_replies),
    Region("checks/lines_wanted.py", "requests", "commands", checks.library_requests),
    Region("bench/lines.rs", "words", "commands", checks.bench_words, 8),
    Region("rows/battles/not_logged_in.row", "commands", "commands", checks.tried_logged_out),
    Region("rows/battles/not_in_a_battle.row", "commands", "commands", checks.tried_without_battle),
    Region("rows/battles/not_the_founder.row", "commands", "commands", checks.tried_as_member),
]
