# Writes CSV for a spreadsheet from JSON lines, a row for each line:
#
#     t1check-all -q --reasons --format jsonl fonts >t1check.jsonl
#     jq -rn -f rows.jq t1check.jsonl >t1check.csv
#
# `place` is the index in an entry, the step in a glyph, the rule of a waiver; `subrs` are the Subrs that are being executed.
["font", "unit", "name", "subrs", "place", "rule", "level", "text", "reason"],
(inputs | [
  .file // "", .unit, .key // .name // "", (.path // [] | map(tostring) | join(">")), .index // .step // .waived // "",
  .code // "", .level // "", .text, .reason.text // ""
])
| @csv
