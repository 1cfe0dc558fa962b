#!/usr/bin/env bash
# Writes the report of the roots in FILE, one a line, to FILE.report.
#
#     shard.sh FILE [OPTION ..]        STARLOAD names the program, by default starload on the PATH
#
# A report of files at fault is a report, so the status is 0 if one was written: engines take any other for a failure.
file="$1"
shift
exec "${STARLOAD:-starload}" "$@" --report-status --roots-from "$file" >"$file.report"
