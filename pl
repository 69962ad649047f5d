#!/bin/sh
# pl NAME [WORD..]: runs the program target/bin/NAME, for make and scripts. A program has no exit
# status of its own, so this ends with 1 where the program wrote to the error output or a line of
# its output is a refusal (:N-k), with 2 where it did not run to its end, and else with 0.
usage='usage: pl NAME [WORD..]: runs target/bin/NAME, and ends with 1 where it refused or reported something'
case ${1:-} in
-h | --help) echo "$usage"; exit 0 ;;
'') echo "$usage" >&2; exit 2 ;;
esac
program=$(dirname "$0")/target/bin/$1
[ -x "$program" ] || { echo "pl: there is no $program; \`./build $1\` builds it" >&2; exit 2; }
shift
work=$(mktemp -d) || exit 2
trap 'rm -rf "$work"' EXIT
trap 'exit 2' HUP INT TERM
"$program" "$@" >"$work/out" 2>"$work/err"
status=$?
cat "$work/err" >&2
cat "$work/out" || exit 1
[ $status -eq 0 ] || { echo "pl: $program ended with $status" >&2; exit 2; }
[ ! -s "$work/err" ] && ! grep -aq '^:N-' "$work/out"
