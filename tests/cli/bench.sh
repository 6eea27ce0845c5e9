# The lines of the bench table, by the tool.
# ANSWER OLD NEW [OPTION...]: what a rename on the bench tree is answered
line() {
    wanted=$1
    old=$2
    new=$3
    shift 3
    run "$mp" rename --user 100 --group 100 --now 500 "$@" "$tree" "$old" "$new" line.plan
    [ "$(cat out)" = "$wanted" ] || wrong "$old to $new: $(cat out), expected $wanted"
    passed=$((passed + 1))
}

tree=bench
line '0 6 2 2' /a/f /a/k
line '0 0 2 2' /a/f /b/h
line '0 8 2 2' /a/f /b/g
line '0 7 2 2' /a/d /b/e/
line '22 0 1 3' /a /a/d/x
line '21 0 2 2' /a/f /a/d
line '39 0 1 1' /b /a
line '0 7 3 1' /s/f /k
line '0 6 1 1' /s /t
line '20 0 2 1' /a/f /k/
line '0 7 1 1' g /g --old-start 0
line '9 0 0 0' g /g --old-start 9
line '16 0 0 0' / /k
line '2 0 0 0' '' /k
run "$mp" rename --user 200 --group 200 --now 500 bench /a/f /a/k line.plan
[ "$(cat out)" = '13 0 2 2' ] || wrong "another caller: $(cat out)"

# The same tree without a free entry: the file /b/g is /x, too.
{ cat "$root/tools/mp/data/bench.listing"; echo 'name slot=7 /x = /b/g'; echo 'entries 8'; } >full.txt
expect 0 '' 'full.img: a sound image of 624 bytes' sh -c '"$1" make full.img <full.txt' sh "$mp"
tree=full.img
line '28 0 2 2' /a/f /a/k
line '0 8 2 2' /a/f /b/g
for row in 0 1 2 3 4 5 6 7; do run "$mp" land full.img line.plan $row; done
expect_part 0 'file mode=0755 owner=100:100 fs=0 links=1 modified=100 changed=500 inode=4' "$mp" tree full.img
