#!/usr/bin/env bash
# As xargs.sh, with roots dealt by what they load (cluster/shards.py): N processes at a time, and more in all if one would
# have too many files. A process that is killed runs again, at most twice.
#
#     planned.sh N ROOTS --repo DIR [OPTION ..]     status 0, 1 if a file is at fault, 2 without a report
#
# ROOTS and --prelude have labels, as //app:main.star.
count="$1" roots="$2"
shift 2
here="$(cd "$(dirname "${BASH_SOURCE[0]}")" && pwd)"
export STARLOAD="${STARLOAD:-starload}"
made="$(mktemp -d)" || exit 2
trap 'rm -rf "$made"' EXIT

# the options that decide which files there are, and the prelude, which each shard reads
files=() prelude=()
for ((i = 1; i <= $#; i++)); do
    next=$((i + 1))
    case "${!i}" in
    --prelude) prelude=(--prelude "${!next}") ;;
    --prelude=*) prelude=("${!i}") ;;
    --repo | --links) files+=("${!i}" "${!next}") ;;
    --repo=* | --links=*) files+=("${!i}") ;;
    esac
done

"$STARLOAD" "${files[@]}" "${prelude[@]}" --graph=json --roots-from "$roots" >"$made/graph" || exit 2
planner="$here/../../cluster/shards.py"
"$planner" "$made/graph" "$count" "$made/shard" --roots-from "$roots" "${prelude[@]}" >"$made/shards" || exit 2
# shellcheck disable=SC2016
again='for _ in 1 2 3; do "$@"; status=$?; [ "$status" -le 2 ] && exit "$status"; done; exit "$status"'
xargs -r -d '\n' -P "$count" -I {} bash -c "$again" again "$here/shard.sh" {} "$@" <"$made/shards" || exit 2
xargs -r -d '\n' -I {} cat {}.report <"$made/shards" >"$made/reports" || exit 2
"$STARLOAD" --join <"$made/reports"
