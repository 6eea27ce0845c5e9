# The explorer and the demo.
expect_part 0 'this rename survives 283 states' "$mp" explore bench third
expect_part 0 'repaired and landed: 5 end as the image before, 278 as the finished one, 0 otherwise' "$mp" explore bench third
expect_part 0 'group 2  row 1  LINK 5, the new entry' "$mp" explore bench third
expect_part 0 'this exchange survives 72 states' "$mp" explore --exchange bench /a /b
expect_part 0 'exchange /a and /b by user 0 in group 0, at time 101' "$mp" explore --exchange bench /a /b
expect_part 0 'rename /a/f to /k, replacing nothing, by user 100' "$mp" explore --no-replace --user 100 --group 100 bench /a/f /k
expect 1 '39 0 1 1' 'the rename is refused, so there is nothing to explore' "$mp" explore --html none bench /b /a
expect 0 '0 0 2 2' 'both names are of one file, so there is nothing to explore' "$mp" explore --dot none bench /a/f /b/h
missing none
cp bench kept
expect 2 '' '--html and IMAGE are the same file, kept' "$mp" explore --html kept kept /a/f /b/g
expect 2 '' '--save and IMAGE are the same file, kept' "$mp" explore --save kept kept /a/f /b/g
expect 2 '' '--html and --dot are the same file, none' "$mp" explore --html none --dot none kept /a/f /b/g
same kept bench
long_path=$(head -c 70000 /dev/zero | tr '\0' a)
expect 2 '' 'a request has no place for 70000 bytes in a list' "$mp" explore --save none bench "$long_path" /b/g
missing none
expect 1 '201 0 0 0' '201 unsound image' "$mp" explore short /b /a
expect_part 0 'survives' "$mp" explore --dot graph --html page --save saved --user 100 --group 100 --now 500 bench /a/f /b/g
same saved third
[ "$(grep -c fillcolor graph)" = 283 ] || wrong "the graph has not every state"
grep -q 'this rename survives 283 states' page || wrong "the page has no verdict"
! grep -q 'http' page || wrong "the page has outside parts"
expect 2 '' 'REQUEST (or OLD and NEW) is missing' "$mp" explore bench
expect 2 '' 'none cannot be opened: No such file or directory' "$mp" explore bench none
expect 2 '' 'option --user goes with OLD and NEW: the file third says it itself' "$mp" explore --user 1 bench third
expect_part 0 'this rename survives 283 states' "$mp" demo
expect_part 0 'In 64 of them the file has neither its old name nor its new one.' "$mp" demo
expect 2 '' 'there is a word too many: "tree"' "$mp" demo tree
