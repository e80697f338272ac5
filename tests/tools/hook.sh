#!/bin/sh
# Tries the hooks of pre-commit that this repository offers: their entries are there, and their files are fonts and what decides over their lines.
# tests/tools/recipes.sh runs them.

# shellcheck source=tests/tools/common.sh
. "$(dirname "$0")/common.sh"

hooks=$top/.pre-commit-hooks.yaml
# What a hook has for a key: ID KEY.
of_hook() {
    awk -v id="$1" -v key="  $2: " '
        /^- id: / { within = $3 == id }
        within && index($0, key) == 1 { value = substr($0, length(key) + 1); gsub(/^\047|\047$/, "", value); print value }
    ' "$hooks"
}

printf '%s\n' a.pfb a.pfb.waivers a.afm b/c.PFA 'd e.t1' f/d.t1.waivers pfb at1 .t1check.toml f/.t1check.toml x.t1check.toml known.txt unknown.txt \
    waivers a.pfb.txt >names
for id in t1check t1check-node; do
    entry=$(of_hook "$id" entry)
    if [ -x "$top/${entry%% *}" ]; then pass; else fail ".pre-commit-hooks.yaml: no entry '$entry' of $id"; fi
done
wanted <<'END'
a.pfb
a.pfb.waivers
b/c.PFA
d e.t1
f/d.t1.waivers
.t1check.toml
f/.t1check.toml
known.txt
--
END
for id in t1check t1check-node; do
    try "files of the hook $id" 0 grep -E "$(of_hook "$id" files)" names
done
# The hook of an installed program has the same files.
wanted <<END
        files: '$(of_hook t1check files)'
--
END
try 'files of docs/recipes/pre-commit-config.yaml' 0 grep '^ *files:' "$top/docs/recipes/pre-commit-config.yaml"

finish
