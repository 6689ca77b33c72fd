#!/bin/sh
# compare.sh SCRIPTS ORACLE OTHER: both programs on every script of a folder, every byte of the answers compared.
# It stops at the first difference and shows it; at the end it says how much was compared.
set -eu
dir=$1 oracle=$2 other=$3
work=$(mktemp -d)
trap 'rm -rf "$work"' EXIT
scripts=0 operations=0 answers=0
for script in "$dir"/*.script; do
    "$oracle" < "$script" > "$work/want"
    "$other" < "$script" > "$work/got" || { echo "$script: $other failed"; exit 1; }
    if ! cmp -s "$work/want" "$work/got"; then
        echo "$script: the answers differ (left $oracle, right $other)"
        diff "$work/want" "$work/got" | head -n 20
        exit 1
    fi
    scripts=$((scripts + 1))
    operations=$((operations + $(grep -c '^ *[^ #[:cntrl:]]' "$script")))
    answers=$((answers + $(wc -l < "$work/want")))
done
[ "$scripts" -gt 0 ] || { echo "no script in $dir"; exit 1; }
echo "compared: $scripts scripts, $operations operations, $answers lines of answers"
