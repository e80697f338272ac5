#!/bin/sh
# Stands in the place of a program: has it run by serve.mjs, whose pipe is REQUESTS. Where files may have a size at most, or a library is loaded first,
# node runs it in this process.
requests=REQUESTS
name=${0##*/}
[ "$(ulimit -f)${LD_PRELOAD-}" = unlimited ] || exec node "${0%/crates/*}/web/$(echo "$name" | tr _ -).mjs" "$@"
if [ $# -gt 0 ]; then printf '%s\0' "$@"; fi >"$requests.$$.words"
mkfifo "$requests.$$.reply"
# Not by this shell itself, whose output would be the pipe for a moment.
(echo "$$ $name" >"$requests")
read -r status <"$requests.$$.reply"
rm -f "$requests.$$.words" "$requests.$$.reply"
exit "$status"
