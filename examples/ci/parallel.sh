#!/usr/bin/env bash
# The same as xargs.sh by GNU parallel, which runs a shard that failed up to three times:  parallel.sh N ROOTS [OPTION ..]
count="$1" roots="$2"
shift 2
here="$(cd "$(dirname "${BASH_SOURCE[0]}")" && pwd)"
made="$(mktemp -d)" || exit 2
trap 'rm -rf "$made"' EXIT
split --number "r/$count" --elide-empty-files "$roots" "$made/shard."
find "$made" -name 'shard.*' | parallel --retries 3 --jobs "$count" "$here/shard.sh" {} "${@@Q}" || exit 2
find "$made" -name '*.report' -print0 | xargs -0 -r cat | "${STARLOAD:-starload}" --join
