# mp alone, help, and command lines that are no command.
expect_part 0 'Begin with: mp demo' "$mp"
expect_part 0 'mp help COMMAND tells more' "$mp" help
expect_part 0 'mp help COMMAND tells more' "$mp" --help
for command in check rename land repair tree make explore demo soak; do
    expect_part 0 "mp $command" "$mp" help
    expect_part 0 'example:' "$mp" help $command
done
expect 2 '' 'mp: there is no command "frob"; `mp help` lists them' "$mp" frob
expect 2 '' 'mp: there is no command "frob"; `mp help` lists them' "$mp" help frob
expect 2 '' 'mp: there is a word too many: "land"' "$mp" help check land
expect 2 '' 'mp: IMAGE is missing' "$mp" check
expect 2 '' 'mp: there is a word too many: "b"' "$mp" check a b
expect 2 '' 'mp: there is no option --frob here' "$mp" check --frob
expect 2 '' 'mp: option --seed lacks its number' "$mp" land --seed
expect 2 '' 'mp: option --seed is given twice' "$mp" land --seed 1 --seed 2 a b
expect 2 '' 'mp: option --exchange takes no value' "$mp" rename --exchange=1 a b c
expect 2 '' 'mp: option --seed wants a number that is not too large, and got "x"' "$mp" land --seed x bench plan
expect 2 '' 'mp: option --user wants a number that is not too large, and got "4294967296"' "$mp" explore --user=4294967296 out a b
expect 2 '' 'mp: option --groups wants numbers with commas between them, and got "1,,2"' "$mp" explore --groups 1,,2 out a b
expect 2 '' 'mp: --frob cannot be opened' "$mp" check -- --frob
expect_part 0 'mp 0.' "$mp" --version
expect_part 0 'mp land --seed N IMAGE PLAN' "$mp" land --help
expect 2 '' 'mp: "" cannot be opened: No such file or directory' "$mp" check ''
long_word=$(head -c 5000 /dev/zero | tr '\0' 9)
run "$mp" land --seed "$long_word" a b
[ "$(wc -c <err)" -lt 300 ] || wrong "a long word is repeated whole: $(wc -c <err) bytes"

# What the script needs to build, and is not there. Outside of the repository, in which rt would take the crates.txt for its own.
bare=$(mktemp -d)
mkdir -p "$bare/crates/mirepillar_c" "$bare/tools" empty_path
printf 'seq: # nothing\nlayout: seq\nother: layout\nmirepillar: layout seq json\nmirepillar_c staticlib: mirepillar\n' >"$bare/crates.txt"
touch "$bare/crates/newer"
cp "$root/mp" "$bare/mp"
cp "$root/tools/archive" "$bare/tools/archive"
for command in sh dirname readlink find head mkdir tee awk touch cmp cp; do ln -sf "$(command -v $command)" empty_path/$command; done
expect 2 '' 'mp: the command rt is needed to build the proved library, and it is not on the PATH' env PATH="$folder/empty_path" "$bare/mp" help
cat >empty_path/rt <<'END'
#!/bin/sh
echo 'rt: chose --jobs 2 for seq'
echo 'rt: chose --jobs 2 for layout'
echo 'rt: the library layout did not build, so nothing above it was checked' >&2
exit 1
END
chmod +x empty_path/rt
expect 2 '' 'mp: proving layout, 2 of at most 4' env PATH="$folder/empty_path" "$bare/mp" help
expect 2 '' 'mp: the library layout did not build' env PATH="$folder/empty_path" "$bare/mp" help
expect 2 '' "mp: the library was not built; $bare/target/staticlib.log tells why" env PATH="$folder/empty_path" "$bare/mp" help
mkdir -p "$bare/target/staticlib" "$bare/tools/mp" "$bare/bindings/rust"
touch "$bare/target/staticlib/libmirepillar.a"
expect 2 '' 'mp: the command cargo is needed to build the tool, and it is not on the PATH' env PATH="$folder/empty_path" "$bare/mp" help
rm -rf "$bare"

# The script finds its root from anywhere, also by a symlink and with CDPATH set.
ln -sf "$root/mp" by_symlink
expect_part 0 'mp 0.' ./by_symlink --version
expect_part 0 'mp 0.' env CDPATH=/ sh -c 'cd / && "$1" --version' sh "$root/mp"
