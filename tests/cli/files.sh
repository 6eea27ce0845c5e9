# Files that cannot be read or written: a sentence, and nothing is changed or left half written.
expect 2 '' 'none cannot be opened: No such file or directory' "$mp" check none
mkdir -p directory
expect 2 '' 'directory cannot be read: Is a directory' "$mp" check directory
zeros 1048577 >long
expect 2 '' 'long is too long: it has more than 1048576 bytes' "$mp" check long
expect 2 '' '/dev/zero is too long: it has more than 1048576 bytes' "$mp" check /dev/zero
expect 2 '' 'directory cannot be written: it is no regular file' "$mp" rename bench third directory
expect 2 '' 'nowhere/plan cannot be written: No such file or directory' "$mp" rename bench third nowhere/plan
expect 2 '' 'standard output is closed, so nothing was done' sh -c '"$1" rename bench third closed.plan >&-' sh "$mp"
missing closed.plan
expect 2 '' 'standard output cannot be written: No space left on device' sh -c '"$1" check bench >/dev/full' sh "$mp"

# What leads nowhere, and what a process has open, is not taken for a new file.
ln -sf nothing dangling
expect 2 '' 'dangling cannot be written: No such file or directory' "$mp" rename bench third dangling
ln -sf loop loop
expect 2 '' 'loop cannot be written: Too many levels of symbolic links' "$mp" rename bench third loop
[ -L dangling ] && [ -L loop ] || wrong "a symlink was replaced"
expect 2 '' '/dev/stdout cannot be written: it is no regular file' "$mp" explore --dot /dev/stdout bench third
cp bench image
expect 2 '' '/dev/stdin cannot be written: it is no regular file' sh -c 'cat image | "$1" land /dev/stdin plan 0' sh "$mp"
[ -L /dev/stdin ] || wrong "/dev/stdin was replaced"
expect 0 '0 8 2 2' '0 done' "$mp" rename bench third "$(head -c 250 /dev/zero | tr '\0' n)"

# A symlink is followed, and a file keeps its mode and its owner.
cp bench real
chmod 640 real
[ "$(id -u)" != 0 ] || chown 65534:65534 real
owner=$(stat -c %u:%g real)
ln -sf real linked
expect 0 0 '0 done' "$mp" land linked plan 0
[ -L linked ] || wrong "the symlink was replaced by a file"
[ "$(stat -c %a real)" = 640 ] || wrong "the image has another mode: $(stat -c %a real)"
[ "$(stat -c %u:%g real)" = "$owner" ] || wrong "the image has another owner: $(stat -c %u:%g real)"

# Two files or none: where the scratch cannot be written, no plan is made.
expect 2 '' 'nowhere/scratch cannot be written' "$mp" repair real none nowhere/scratch
missing none

# Without the permission to write. The superuser may write anything, so another user tries.
as_somebody() {
    if [ "$(id -u)" = 0 ]; then setpriv --reuid=65534 --regid=65534 --clear-groups "$@"; else "$@"; fi
}
locked=$(mktemp -d)
trap 'chmod -R u+w "$locked"; rm -rf "$locked"' EXIT
cp "$mp" bench third plan "$locked"
chmod 755 "$locked/mp"
chmod 644 "$locked/bench" "$locked/third" "$locked/plan"
chmod 555 "$locked"
expect 2 '' 'bench cannot be written: Permission denied' as_somebody "$locked/mp" land "$locked/bench" "$locked/plan" 0
expect 2 '' 'new.plan cannot be written: Permission denied' as_somebody "$locked/mp" rename "$locked/bench" "$locked/third" "$locked/new.plan"
chmod 000 "$locked/third"
expect 2 '' 'third cannot be opened: Permission denied' as_somebody "$locked/mp" rename "$locked/bench" "$locked/third" "$locked/new.plan"
same "$locked/bench" bench

# A folder that may be written and not read cannot be synced: the file stands, and that is said.
chmod 755 "$locked"
mkdir "$locked/unread"
[ "$(id -u)" != 0 ] || chown 65534:65534 "$locked/unread"
chmod 300 "$locked/unread"
chmod 555 "$locked"
expect 2 '' 'unread/plan is written, but its folder cannot be synced: Permission denied' \
    as_somebody "$locked/mp" rename --user 100 --group 100 --now 500 "$locked/bench" /a/f /b/g "$locked/unread/plan"
chmod 700 "$locked/unread"
same "$locked/unread/plan" plan

# A disk that is full, where one can be made.
if unshare -rm true 2>/dev/null; then
    mkdir -p disk
    expect 2 '' 'disk/plan cannot be written: No space left on device' unshare -rm sh -c \
        'mount -t tmpfs -o size=4k none disk && head -c 4096 /dev/zero >disk/full && "$1" rename bench third disk/plan' sh "$mp"
else
    echo "tests/cli/run: no disk can be filled here without more rights; that test is left out" >&2
fi
nothing_half_written
