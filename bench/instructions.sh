#!/usr/bin/env bash
# Instructions for a round of calls in 2,048 bytes with one block in use, as valgrind's callgrind counts them: 1,200 rounds less 200, so
# that all that happens once falls out.
set -eu -o pipefail

counted() { # KIND END ROUNDS
    valgrind --tool=callgrind --callgrind-out-file=/dev/null target/bench/calls "$@" 2>&1 | awk '/Collected/ { print $NF }'
}

printf '%-28s %8s %8s\n' 'instructions for a round' 'plain C' proved
for kind in reserve send arrival; do
    round=()
    for end in plain proved; do
        round+=($((($(counted $kind $end 1200) - $(counted $kind $end 200)) / 1000)))
    done
    printf '%-28s %8d %8d\n' $kind "${round[@]}"
done
