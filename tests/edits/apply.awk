# Applies an edit, as `rt must-fail` does: a 'file:' line holds for the pairs of 'old:' and 'new:' behind it, and an 'old:' text stands in its file once.
# Variables: edit, the edit's file; crate, the folder of the crate; into, the folder that the changed files go to, or nothing to try only whether it fits.
# Prints nothing and ends with 0, or prints what is wrong and ends with 1.
function wrong(what) { print what; failed = 1; exit 1 }

function whole(name,  path, text, line, status) {
    path = crate "/" name
    while ((status = (getline line < path)) > 0) text = text line "\n"
    close(path)
    if (status < 0) wrong("there is no file " path)
    return text
}

function replace(name, old, new,  text, at, rest) {
    if (name !~ /^(src|specs|proofs)\// || name ~ /\.\./) wrong("a 'file:' line names no file under src/, specs/ or proofs/: " name)
    if (!(name in texts)) texts[name] = whole(name)
    text = texts[name]
    at = index(text, old)
    if (old == "" || !at) wrong("an 'old:' text does not stand in " name ": " old)
    rest = substr(text, at + length(old))
    if (index(rest, old)) wrong("an 'old:' text stands in " name " more than once: " old)
    texts[name] = substr(text, 1, at - 1) new rest
    pairs++
}

BEGIN {
    while ((status = (getline line < edit)) > 0) {
        if (line ~ /^file: /) name = substr(line, 7)
        else if (line ~ /^old: /) old = substr(line, 6)
        else if (line ~ /^new:/) {
            new = substr(line, 5)
            sub(/^ /, "", new)
            replace(name, old, new)
            old = ""
        }
    }
    if (status < 0) wrong("it cannot be read")
    if (!pairs) wrong("it has no pair of 'old:' and 'new:'")
    if (into != "") for (name in texts) printf "%s", texts[name] > (into "/" name)
}
END { exit failed }
