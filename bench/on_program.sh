# What the benches share. Each reads this file in with `.`, and calls `on_program` once.

# Builds the program, and runs the Python script of that name in bench/ on it, in a folder that goes at
# the end, with the words that follow. It is given the program itself and not `discovery`, which looks
# for newer sources each time. Where the variable NETWORK is `ethernet`, it runs on a host of its own whose
# loopback has an Ethernet's segments, 1,500 bytes in place of 64 KiB.
on_program() {
    script=$1
    shift
    root=$(CDPATH='' cd -- "$(dirname -- "$0")/.." && pwd)
    work=$(mktemp -d)
    trap 'rm -rf "$work"' EXIT
    trap 'exit 1' HUP INT TERM
    "$root/discovery" replay </dev/null
    set -- python3 "$root/bench/$script" "$root/crates/discovery/out/discovery" "$work" "$@"
    if [ "${NETWORK:-}" = ethernet ]; then
        set -- unshare --map-root-user --net sh -c 'ip link set lo up mtu 1500 && exec "$@"' sh "$@"
    fi
    "$@"
}
