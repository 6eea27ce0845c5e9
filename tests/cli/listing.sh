# Images as listings and back. Every fault of a listing is among the tool's own tests, which run before.
expect 0 '' 'bench.img: a sound image of 624 bytes' sh -c '"$1" make bench.img <"$2"' sh "$mp" "$root/tools/mp/data/bench.listing"
same bench.img bench
expect_part 0 'dir  mode=0755 owner=100:100 fs=0 links=3 modified=100 changed=100 inode=1 slot=0         /a' "$mp" tree bench
expect_part 0 'name                                                                       slot=6         /b/h = /a/f' "$mp" tree bench
expect_part 0 'link mode=0755 owner=100:100 fs=0 links=1 modified=100 changed=100 inode=6 slot=2 text=0  /s -> a' "$mp" tree bench
expect_part 0 'handle 0 open /b' "$mp" tree bench
expect_part 0 'journal clear' "$mp" tree bench
run "$mp" tree bench
cp out bench.txt
expect 0 '' 'again.img: a sound image of 624 bytes' sh -c '"$1" make again.img <bench.txt' sh "$mp"
same again.img bench
expect 2 '' 'bench.img is no image' sh -c 'head -c 100 bench >bench.img; "$1" tree bench.img' sh "$mp"
expect 2 '' 'short is no image: by its table of contents it ends at 624, and it has 623 bytes' "$mp" tree short
expect 2 '' 'third is no image: it has 34 bytes, and a table of contents alone has 40' "$mp" tree third
{ printf XODE; tail -c +5 bench; } >bad
expect 2 '' 'bad is no image: its table of contents has no section NODE in its place' "$mp" tree bad
{ head -c 6 bench; two_bytes 0; tail -c +9 bench; } >bad
expect 2 '' 'bad is no image: section NODE has 0 records, where 1 to 512 are allowed' "$mp" tree bad
{ head -c 12 bench; two_bytes 265; tail -c +15 bench; } >bad
expect 2 '' 'bad is no image: section LINK is said to begin at 265, and it begins at 264' "$mp" tree bad

# An image that a power cut has left.
cp bench image
for row in 0 1; do run "$mp" land image plan $row; done
expect_part 0 'journal pending: rename of inode 3' "$mp" tree image
expect_part 0 '# mp check answers 203 the journal record (the note) is not all zero: repair first' "$mp" tree image

expect 2 '' 'the listing on standard input, line 2, column 6: there is no directory /b; list it before what is in it' \
    sh -c 'printf "dir /a\nfile /b/f\n" | "$1" make none.img' sh "$mp"
missing none.img
expect 2 '' 'the listing on standard input is too long' sh -c 'head -c 134217729 /dev/zero | "$1" make none.img' sh "$mp"
cp bench kept
expect 2 '' 'the listing on standard input is empty; for an image of the root alone it has to say: dir /' sh -c '"$1" make kept <&-' sh "$mp"
expect 2 '' 'the listing on standard input is empty' sh -c 'printf "\n \n" | "$1" make kept' sh "$mp"
same kept bench
expect 0 '' 'a sound image of 136 bytes' sh -c 'echo dir / | "$1" make root.img' sh "$mp"

# The deepest tree there is, under names of bytes that are printed as four: a listing of megabytes, and the same image again.
awk 'BEGIN { for (at = 1; at < 512; at++) { path = path "/\\x80\\x80\\x80"; print "dir \"" path "\"" } }' >deep.txt
expect 0 '' 'deep.img: a sound image of' sh -c '"$1" make deep.img <deep.txt' sh "$mp"
expect 0 '' 'deep2.img: a sound image of' sh -c '"$1" tree deep.img | "$1" make deep2.img' sh "$mp"
same deep.img deep2.img
expect 2 '' 'IMAGE is missing' "$mp" make
expect 2 '' 'the listing on standard input cannot be read: Is a directory' sh -c '"$1" make none.img <.' sh "$mp"
expect 2 '' 'nowhere/tree.img cannot be written: No such file or directory' sh -c 'echo dir /a | "$1" make nowhere/tree.img' sh "$mp"
missing none.img
