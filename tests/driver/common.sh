# Shared by the tests of the line driver. Each runs in a network namespace of its own, which ends with it: no interface
# outside is touched. A test that cannot run here ends with status 77, skipped.

self=$(realpath "$0")
cd "$(dirname "${BASH_SOURCE[0]}")/../.." || exit 1
programs=${DRIVER_PROGRAMS:-$PWD/target/driver}
here=$PWD/tests/driver

skip() {
    echo "$(basename "$0"): skipped: $*"
    exit 77
}

# Runs this script again inside a new namespace.
own_namespace() {
    [ "${KOCHIPURN_NAMESPACE:-}" = "$$" ] && return
    local way="unshare -n"
    [ "$(id -u)" = 0 ] || way="unshare -rn"
    $way true 2>/dev/null || skip "no network namespace can be made here"
    export KOCHIPURN_NAMESPACE=$$
    rmdir "$work" "$reports" # made again there
    # exec keeps the process number
    exec $way bash "$self" "$@"
}

# A pair of interfaces with a line between: vhost and vmachine.
own_line() {
    ip link add vhost type veth peer name vmachine || skip "no veth pair can be made here"
    for name in vhost vmachine; do
        [ -e "/proc/sys/net/ipv6/conf/$name/disable_ipv6" ] && echo 1 >"/proc/sys/net/ipv6/conf/$name/disable_ipv6"
        ip link set "$name" up
    done
}

# address INTERFACE: its Ethernet address.
address() { ip -o link show "$1" | sed 's/.*ether \([^ ]*\) .*/\1/' | tr : -; }

passed=0
failed=0
work=$(mktemp -d)
reports=$(mktemp -d)
chmod 1777 "$reports" # for programs that have given up their privileges
trap 'rm -rf "$work" "$reports"' EXIT

# Of the sanitized programs: what they find goes to files, so that none is missed.
export ASAN_OPTIONS=log_path=$reports/found UBSAN_OPTIONS=log_path=$reports/found

# check NAME COMMAND..: one case. Timers run by the clock, and a computer that is short of processors may let one run out
# early, so a case that fails is tried twice more.
check() {
    local name=$1
    shift
    for _ in 1 2 3; do
        if "$@" >"$work/case.out" 2>&1; then
            passed=$((passed + 1))
            return
        fi
        echo "not passed in this try: $name"
    done
    failed=$((failed + 1))
    echo "FAILED: $name"
    tail -n 25 "$work/case.out"
}

summary() {
    if [ -n "$(ls "$reports")" ]; then
        cat "$reports"/*
        failed=$((failed + 1))
    fi
    echo "$(basename "$0"): $passed passed, $failed failed"
    [ "$failed" = 0 ]
}

# bytes N: as many, always the same ones.
bytes() {
    seq 1 9999999 | head -c "$1"
}

# counted LOG JOB STARTS ADVANCES REJECTIONS: what the log says that its last session counted, with the share of the frames
# that moved nothing. Their number is left in ignored.
counted() {
    local said share all
    said=$(grep '^Frames counted: ' "$1" | tail -n 1)
    ignored=$(sed -n 's/.* moved it on, \([0-9]*\) moved nothing .*/\1/p' <<<"$said")
    all=$(($3 + $4 + ignored + $5))
    share=$(((2000 * ignored + all) / (2 * all))) # in tenths, rounded
    share=$((share / 10)).$((share % 10))
    echo "Frames counted: $3 started the $2, $4 moved it on, $ignored moved nothing ($share % of all), $5 rejected it." \
        | diff - <(echo "$said")
}

# after FILE TEXT: waits until the text stands in the file, 10 seconds at most. The file of an earlier case must be gone.
after() {
    for _ in $(seq 1000); do
        grep -qs -- "$2" "$1" && return 0
        sleep 0.01
    done
    echo "'$2' did not come in $1"
    return 1
}
