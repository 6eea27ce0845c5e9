#!/bin/sh
# Builds what the tool needs, the proved library and the tool itself, says so, and runs it.
set -eu
root=$(dirname "$(readlink -f "$0")")
archive=$root/target/staticlib/libmirepillar.a
tool=$root/target/tools/release/mp

say() { echo "mp: $*" >&2; }

needs() { command -v "$1" >/dev/null 2>&1 || { say "the command $1 is needed to build $2, and it is not on the PATH"; exit 2; }; }

# Whether a file is missing, or older than something in the folders behind it; what the prover keeps in out/ is none of it.
is_old() {
    file=$1
    shift
    [ ! -e "$file" ] || [ -n "$(find "$@" -name out -prune -o -type f -newer "$file" -print | head -n 1)" ]
}

# How many crates the library is made of: itself, and all that it uses.
crates() {
    awk '{ sub(/#.*/, "") } split($0, side, ":") == 2 { sub(/ .*/, "", side[1]); uses[side[1]] = side[2] }
        function reach(name,  list, i) {
            if (name in seen) return
            seen[name]
            count++
            for (i = split(uses[name], list, " "); i; i--) if (list[i] in uses) reach(list[i])
        }
        END { reach("mirepillar_c"); print count }' "$root/crates.txt"
}

# The prover tells much; what a person waits for is how far it is. Crates are proved one after the other, and not again where they have not changed.
prove() {
    "$root/tools/archive" && touch "$archive"
}
progress() { # TOTAL
    begun=0
    while IFS= read -r line; do
        case $line in
        'rt: chose '*' for '*)
            begun=$((begun + 1))
            say "proving ${line##* }, $begun of at most $1"
            ;;
        'rt: the library '*' did not build'* | 'rt: mend '*) say "${line#rt: }" ;;
        'rattle build: '*) say "${line#rattle build: }" ;;
        esac
    done
}
if is_old "$archive" "$root/crates" "$root/crates.txt"; then
    needs rt "the proved library"
    say "building the proved library: every function of it is proved first, which takes some minutes"
    mkdir -p "$root/target"
    prove 2>&1 | tee "$root/target/staticlib.log" | progress "$(crates)"
    if is_old "$archive" "$root/crates" "$root/crates.txt"; then
        say "the library was not built; $root/target/staticlib.log tells why"
        exit 2
    fi
fi
if is_old "$tool" "$root/tools/mp" "$root/bindings/rust" "$archive"; then
    needs cargo "the tool"
    say "building the tool"
    cargo build --quiet --release --offline --locked --manifest-path "$root/tools/mp/Cargo.toml" --target-dir "$root/target/tools" >&2 || exit 2
    touch "$tool"
fi
exec "$tool" "$@"
