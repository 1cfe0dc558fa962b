#!/usr/bin/env bash
# Runs the roots in ROOTS, one a line, as N processes side by side, and writes the report that one process would write.
#
#     xargs.sh N ROOTS [OPTION ..]     as starload: status 0, 1 if a file is at fault, 2 without a report
count="$1" roots="$2"
shift 2
here="$(cd "$(dirname "${BASH_SOURCE[0]}")" && pwd)"
made="$(mktemp -d)" || exit 2
trap 'rm -rf "$made"' EXIT
split --number "r/$count" --elide-empty-files "$roots" "$made/shard."
find "$made" -name 'shard.*' -print0 | xargs -0 -r -P "$count" -I {} "$here/shard.sh" {} "$@" || exit 2
find "$made" -name '*.report' -print0 | xargs -0 -r cat | "${STARLOAD:-starload}" --join
