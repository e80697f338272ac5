#!/bin/sh
# Runs t1draw on the cases of tests/draw, as tests/program.sh runs t1check on its own: that does all of it, by the name of the script that
# was called. The wanted pictures there were written by hand, by docs/REFERENCE.md.
set -u

# shellcheck source=/dev/null
. "$(dirname "$0")/program.sh"
