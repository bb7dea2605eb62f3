# The libraries of the repository that the crates named in the variable `names` stand on, lowest first, by lines as crates.txt has
# them.
/^[^#].*:/ { name = $1; sub(/:.*/, "", name); order[++count] = name; sub(/^[^:]*:/, ""); uses[name] = $0 }
END {
    for (at = wanted = split(names, left, " "); at > 0; at--) if (!(left[at] in uses)) { print left[at] " is not listed" > "/dev/stderr"; exit 1 }
    for (at = 1; at <= wanted; at++) {
        found = split(uses[left[at]], below, " ")
        for (i = 1; i <= found; i++) if (below[i] in uses && !(below[i] in stands)) { stands[below[i]]; left[++wanted] = below[i] }
    }
    for (i = 1; i <= count; i++) if (order[i] in stands) print order[i]
}
