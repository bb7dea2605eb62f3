# Takes a row apart: for each of its scripts, K from 1, the files FOLDER/K.script, K.shown, K.error, K.status, and K.case with
# the line that stands in the place of `@`.
# rows/README.md says what the lines of a row are.

# A sum of numbers.
function sum(text,    parts, k, out) {
    for (k = split(text, parts, /\+/); k > 0; k--) out += parts[k]
    return out
}

# A number in the place of % in a text, and with two digits in the place of %02.
function numbered(text, number) {
    gsub(/%02/, sprintf("%02d", number), text)
    gsub(/%/, number, text)
    return text
}

# {N TEXT} and {A..B TEXT} written out, and bytes that would not be seen.
function written(text,    start, width, inner, at, bounds, number, out) {
    while (match(text, /\{[0-9]+(\+[0-9]+)?(\.\.[0-9]+)? [^}]*\}/)) {
        start = RSTART
        width = RLENGTH
        inner = substr(text, start + 1, width - 2)
        at = index(inner, " ")
        out = ""
        if (split(substr(inner, 1, at - 1), bounds, /\.\./) == 1) {
            for (number = sum(bounds[1]); number > 0; number--) out = out substr(inner, at + 1)
        } else {
            for (number = sum(bounds[1]); number <= bounds[2] + 0; number++) out = out numbered(substr(inner, at + 1), number)
        }
        text = substr(text, 1, start - 1) out substr(text, start + width)
    }
    gsub(/<space>/, " ", text)
    gsub(/<tab>/, "\t", text)
    gsub(/<cr>/, "\r", text)
    while (match(text, /<x[0-9A-F][0-9A-F]>/))
        text = substr(text, 1, RSTART - 1) sprintf("%c", 16 * digit(text, RSTART + 2) + digit(text, RSTART + 3)) substr(text, RSTART + 5)
    return text
}

# The hexadecimal digit at a place.
function digit(text, at) { return index("0123456789ABCDEF", substr(text, at, 1)) - 1 }

function refuse(why) { print FILENAME ":" FNR ": " why > "/dev/stderr"; refused = 1; exit 2 }

# A line of the script, or one that the show above it writes.
function line(text,    label) {
    if (text !~ /^[0-9]+> /) {
        script = script text "\n"
        last = text
        return
    }
    label = substr(text, 1, index(text, ">") - 1)
    sub(/<end>$/, "", last)
    if (last != "show " label) refuse("what is shown stands behind another line than show " label)
    shown = shown text "\n"
}

# With VIEW the file is what a client knows, and is written out as it stands.
VIEW { print written($0); next }
/^# / { next }
/^! / {
    if (error != "") refuse("a second end")
    if (!match($0, / \(status [0-9]+\)$/)) refuse("an end without its status")
    error = substr($0, 3, RSTART - 3) "\n"
    status = substr($0, RSTART + 9, RLENGTH - 10)
    next
}
/^each / { cases[++count] = written(substr($0, 6)); next }
/^repeat [0-9]+ [0-9]+ / {
    text = $0
    sub(/^repeat [0-9]+ [0-9]+ /, "", text)
    for (number = $2; number <= $3; number++) {
        each = text
        gsub(/%%02/, sprintf("%02d", number), each)
        gsub(/%%/, number, each)
        each = numbered(written(each), number)
        sub(/<lf>$/, "", each)
        lines = split(each, parts, /<lf>/)
        for (k = 1; k <= lines; k++) line(parts[k])
    }
    next
}
{ line(written($0)) }

END {
    if (VIEW) exit 0
    if (refused) exit 2
    sub(/<end>\n$/, "", script)
    at = index("\n" script, "\n@\n")
    if ((at > 0) != (count > 0)) refuse(at ? "a line @ without each" : "each without a line @")
    if (count == 0) cases[count = 1] = ""
    for (k = 1; k <= count; k++) {
        name = FOLDER "/" k
        whole = at ? substr(script, 1, at - 1) cases[k] "\n" substr(script, at + 2) : script
        printf "%s", whole > (name ".script")
        printf "%s", shown > (name ".shown")
        printf "%s", error > (name ".error")
        printf "%s", status + 0 > (name ".status")
        printf "%s", cases[k] > (name ".case")
        close(name ".script"); close(name ".shown"); close(name ".error"); close(name ".status"); close(name ".case")
    }
}
