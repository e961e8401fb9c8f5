#!/usr/bin/env bash
# Makes each allocation of the program `harbour` fail in turn, on the file of the small harbour. Each time the program has to end with status 1, a message on
# standard error and nothing on standard output; but where the room for all words of the file at once is refused, std asks for less, and the program prints all
# its lines. Past the last allocation it prints them too: that is taken to be so where three numbers in a row do. Fails unless all is so.
set -eu -o pipefail
cd "$(dirname "$0")/../crates/harbour"
work=$(mktemp -d)
trap 'rm -rf "$work"' EXIT
file=data/$(cat args)
side_by_side=4
past=3
most=100

# Runs the program with this allocation failing.
try() {
    rt try --fail-alloc "$1" -- "$file" > "$work/$1.out" 2> "$work/$1.err" || true
}

# What came of the run: 'failed' as it has to, 'printed' all lines, or 'neither'.
outcome() {
    local last
    last=$(tail -n 1 "$work/$1.err")
    if [[ $last == 'run=ended status=1 '* && ! -s "$work/$1.out" ]] && grep -q '^Error: ' "$work/$1.err"; then
        echo failed
    elif [[ $last == 'run=ended status=0 '* ]] && cmp -s stdout "$work/$1.out"; then
        echo printed
    else
        echo neither
    fi
}

# How many failed so far, how many numbers before the last of them printed all lines, and how many in a row since.
failed=0
made_good=0
in_a_row=0
for ((first = 1; first <= most; first += side_by_side)); do
    for ((n = first; n < first + side_by_side; n++)); do
        try "$n" &
    done
    wait
    for ((n = first; n < first + side_by_side; n++)); do
        case $(outcome "$n") in
            failed)
                echo "allocations: $n: $(grep -m 1 '^Error: ' "$work/$n.err")"
                failed=$((failed + 1))
                made_good=$((made_good + in_a_row))
                in_a_row=0
                ;;
            printed) in_a_row=$((in_a_row + 1)) ;;
            *)
                cat "$work/$n.out" "$work/$n.err" >&2
                echo "allocations: $n: neither a failure with a message and no line, nor all lines" >&2
                exit 1
                ;;
        esac
        if ((in_a_row == past)); then
            if ((failed == 0 || made_good > 1)); then
                echo "allocations: $failed failed, $made_good were made good; at most one may be" >&2
                exit 1
            fi
            echo "allocations: $failed failed as they have to, $made_good was made good"
            exit 0
        fi
    done
done
echo "allocations: more than $most" >&2
exit 1
