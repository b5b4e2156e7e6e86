# Prints the named items of a Rust source, so that a program can be built of them without the rest: `awk -v items=.. -f peer.awk`.
# `items` holds fronts of lines, with `|` between them. An item ends with its `}` or, on one line, with `;`. Attributes are left
# out, and of an enum the variants that name other crates.
BEGIN { count = split(items, fronts, "|") }
function begins(line,    i) {
    for (i = 1; i <= count; i++) if (index(line, fronts[i]) == 1) return 1
    return 0
}
# The end of an attribute over several lines.
attribute { if ($0 ~ /^ *\)?\]$/) attribute = 0; next }
/^ *#\[/ { if ($0 !~ /\]$/) attribute = 1; next }
!inside && begins($0) {
    indent = match($0, /[^ ]/) - 1
    closing = sprintf("%*s}", indent, "")
    if ($0 ~ /(enum|struct) [A-Za-z]+/) print "#[derive(Clone, Debug)]"
    print
    inside = $0 !~ /;$/
    next
}
inside && /naga::|RedirectError/ { next }
inside { print; if ($0 == closing) inside = 0 }
