# The four jobs on the bench tree, which is the first item of the stored cases, behind its tag and its length.
tail -c +6 "$root/crates/vectors/data/land" | head -c 624 >bench
request 100 100 500 /a/f /b/g >third

expect 0 0 '0 done' "$mp" check bench
head -c 623 bench >short
expect 1 201 '201 unsound image' "$mp" check short
{ head -c 592 bench; byte 1; tail -c 31 bench; } >pending
expect 1 203 '203 the journal record (the note) is not all zero: repair first' "$mp" check pending

# A rename: 0 makes the plan, and a refusal makes nothing.
expect 0 '0 8 2 2' '0 done' "$mp" rename bench third plan
has_length plan 648
request 100 100 500 /b /a >full
expect 1 '39 0 1 1' '39 ENOTEMPTY' "$mp" rename bench full none
missing none
request 200 200 500 /a/f /a/k >other
expect 1 '13 0 2 2' '13 EACCES' "$mp" rename bench other none
request 100 100 500 /a/f /b/h >twice
expect 0 '0 0 2 2' '0 done' "$mp" rename bench twice twice.plan
zeros 648 | cmp -s - twice.plan || wrong "two names of one file have a plan with rows"
expect 0 '0 8 2 2' '0 done' "$mp" rename --user 100 --group 100 --now 500 bench /a/f /b/g by_paths
same plan by_paths
expect 1 '17 0 2 2' '17 EEXIST: the new name exists' "$mp" rename --no-replace bench third none
expect 1 '2 0 2 2' '2 ENOENT' "$mp" rename --exchange --user 0 bench /a/f /a/none none
expect 1 '22 0 0 0' '22 EINVAL' "$mp" rename --exchange --no-replace bench third none
expect 0 '0 8 2 2' '0 done' "$mp" rename --exchange bench third exchange.plan
expect 1 '202 0 0 0' '202 the current directory is none' "$mp" rename --cwd 3 bench /a/f /k none
expect 1 '202 0 0 0' '202 the current directory is none' "$mp" rename --groups 1,2,3,4,5,6,7,8,9,10,11,12,13,14,15,16,17 bench /a/f /k none
missing none

# A request whose length does not fit its own numbers: no job runs.
head -c 33 third >cut
expect 2 '' 'cut is no request: by its own numbers (0 groups, paths of 4 and 4 bytes) it has 34 bytes, and it has 33' "$mp" rename bench cut none
head -c 25 third >cut
expect 2 '' 'cut is no request: a request has at least 26 bytes, and this one 25' "$mp" rename bench cut none
expect 2 '' 'option --now goes with OLD and NEW: the file third says it itself' "$mp" rename --now 1 bench third none
expect 2 '' 'PLAN and IMAGE are the same file, bench' "$mp" rename bench third bench
expect 2 '' 'PLAN and REQUEST are the same file, ./third' "$mp" rename bench third ./third
expect 2 '' 'REQUEST (or OLD and NEW) is missing' "$mp" rename bench
expect 2 '' 'there is a word too many: "d"' "$mp" rename bench /a /b c d
missing none

# Landing, row by row; after the second the rename is decided.
cp bench image
expect 0 0 '0 done' "$mp" land image plan 0
expect 1 207 '207 row not landable' "$mp" land image plan 8
expect 1 207 '207 row not landable' "$mp" land image plan 18446744073709551615
expect 2 '' 'ROW is no number below 2^64: "18446744073709551616"' "$mp" land image plan 18446744073709551616
expect 2 '' 'ROW is no number below 2^64: "-1"' "$mp" land image plan -1
expect 2 '' 'ROW is missing' "$mp" land image plan
head -c 647 plan >short.plan
expect 1 205 '205 the plan has under 648 bytes' "$mp" land image short.plan 0
expect 1 201 '201 unsound image' "$mp" land short plan 0

# Repair takes back, and then finishes.
expect 0 '0 1' '0 done' "$mp" repair image repair.plan scratch
same scratch bench
has_length repair.plan 648
expect 0 0 '0 done' "$mp" land image plan 1
expect 0 '0 6' '0 done' "$mp" repair image repair.plan scratch
for row in 0 1 2 3 4 5; do expect 0 0 '0 done' "$mp" land image repair.plan $row; done
same image scratch
expect 0 0 '0 done' "$mp" check image
expect 0 '0 0' '0 done' "$mp" repair image repair.plan scratch
{ head -c 592 bench; byte 9; tail -c 31 bench; } >unfit
expect 1 '204 0' '204 not repairable' "$mp" repair unfit none none2
expect 1 '201 0' '201 unsound image' "$mp" repair short none none2
missing none
missing none2
expect 2 '' 'SCRATCH and PLAN are the same file, none' "$mp" repair image none none
expect 2 '' 'SCRATCH and PLAN are the same file, ./none' "$mp" repair image none ./none
expect 2 '' 'SCRATCH and IMAGE are the same file, image' "$mp" repair image none image
expect 2 '' 'PLAN and IMAGE are the same file, image' "$mp" repair image image none

# The store that may do what it is permitted to: the same seed does the same, and a repair makes it whole.
for seed in 1 2 3 4 5 6 7 8 9 10 11 12; do
    cp bench image
    run "$mp" land --seed $seed image plan
    [ $status = 0 ] || wrong "land --seed $seed: status $status"
    cp out first
    cp bench again
    run "$mp" land --seed $seed again plan
    same out first
    same image again
    run "$mp" repair image repair.plan scratch
    [ "$(cut -d ' ' -f 1 out)" = 0 ] || wrong "repair after land --seed $seed: $(cat out)"
    expect 0 0 '0 done' "$mp" check scratch
done
# The third row of this plan covers no record.
{ head -c 20 plan; byte 1; tail -c 627 plan; } >third.bad
cp bench image
expect 1 205 '205 the plan has under 648 bytes' "$mp" land --seed 1 image short.plan
same image bench
expect 2 '' 'there is a word too many: "0"' "$mp" land --seed 1 image plan 0
for seed in 1 2 3 4 5; do
    expect 1 201 '201 unsound image' "$mp" land --seed $seed /dev/null plan
    expect 1 207 '207 row not landable' "$mp" land --seed $seed image third.bad
    expect 0 0 '0 of 0 rows landed' "$mp" land --seed $seed image twice.plan
done
same image bench

# A relative path that begins at an open handle.
expect 0 '0 7 1 1' '0 done' "$mp" rename --user 100 --group 100 --old-start 0 bench g /g handle.plan
expect 1 '9 0 0 0' '9 EBADF' "$mp" rename --old-start 9 bench g /g none
expect 2 '' 'option --new-start wants a number that is not too large, and got "256"' "$mp" rename --new-start 256 bench g /g none
