# What the tests of mp share: a run that is held to what is expected of it.
passed=0

wrong() {
    echo "tests/cli/run: $1" >&2
    exit 1
}

# Runs a command, and keeps its status, standard output and standard error.
run() {
    status=0
    "$@" >out 2>err || status=$?
}

# STATUS OUTPUT ERROR COMMAND...: the status, all of standard output, and a part of standard error
expect() {
    wanted_status=$1
    wanted_out=$2
    wanted_err=$3
    shift 3
    run "$@"
    [ "$status" = "$wanted_status" ] || wrong "$*: status $status, expected $wanted_status; it said: $(cat err)"
    [ "$(cat out)" = "$wanted_out" ] || wrong "$*: printed '$(cat out)', expected '$wanted_out'"
    [ -z "$wanted_err" ] || grep -qF -- "$wanted_err" err || wrong "$*: said '$(cat err)', expected '$wanted_err'"
    # A fault of the program itself would be told in other words.
    ! grep -q 'panicked' err || wrong "$*: $(cat err)"
    passed=$((passed + 1))
}

# STATUS PART COMMAND...: the status, and a part of standard output
expect_part() {
    wanted_status=$1
    wanted_part=$2
    shift 2
    run "$@"
    [ "$status" = "$wanted_status" ] || wrong "$*: status $status, expected $wanted_status; it said: $(cat err)"
    grep -qF -- "$wanted_part" out || wrong "$*: printed '$(cat out)', expected a part '$wanted_part'"
    passed=$((passed + 1))
}

# FILE OTHER: two files are the same
same() {
    cmp -s "$1" "$2" || wrong "$1 is not the same as $2"
    passed=$((passed + 1))
}

# FILE LENGTH: a file has that many bytes
has_length() {
    [ "$(wc -c <"$1")" -eq "$2" ] || wrong "$1 has $(wc -c <"$1") bytes, expected $2"
    passed=$((passed + 1))
}

# FILE: a file is not there
missing() {
    [ ! -e "$1" ] || wrong "$1 was made"
    passed=$((passed + 1))
}

# No file of the tool's own may be left anywhere, whatever went wrong.
nothing_half_written() {
    left=$(find "$folder" -name '.mp-*')
    [ -z "$left" ] || wrong "left half written: $left"
    passed=$((passed + 1))
}

byte() { printf '%b' "\\0$(printf %o "$1")"; }
two_bytes() { byte $(($1 % 256)); byte $(($1 / 256)); }
four_bytes() { two_bytes $(($1 % 65536)); two_bytes $(($1 / 65536)); }
zeros() { head -c "$1" /dev/zero; }

# USER GROUP NOW OLD NEW: a request from the root directory, with no further groups
request() {
    four_bytes "$1"
    four_bytes "$2"
    four_bytes "$3"
    four_bytes 0
    two_bytes 0
    byte 255
    byte 255
    two_bytes 0
    two_bytes ${#4}
    two_bytes ${#5}
    printf '%s%s' "$4" "$5"
}
