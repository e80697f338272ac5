# Writes a report of code quality for GitLab from JSON lines:
#
#     t1check-all -q --format jsonl fonts >t1check.jsonl
#     jq -s -f gitlab.jq t1check.jsonl >t1check.json
#
# By its rule's level a fault is major, minor or info; a font refused or not checked is a blocker. A fingerprint has no step, since an edit moves
# the steps after it, but the ordinal among the faults of that glyph and rule.

# Where a line is: "glyph A step 9", "font BlueValues 6", "waiver A H02".
def place:
  [.unit, .key // .name // empty, if .step then "step \(.step)" else .index // .waived // empty end] | map(tostring) | join(" ");

[group_by([.file, .unit, .key // .name, .waived, .code])[] | to_entries[] | .key as $ordinal | .value | {
  description: "\(place): \([.code // empty, .text] | join(" "))",
  check_name: (.code // "unchecked"),
  severity: (if .number then {must: "major", should: "minor", tidy: "info"}[.level] else "blocker" end),
  fingerprint: ([.file, .unit, .key // .name, .waived, .code, $ordinal] | @json | @base64),
  location: {path: (.file // "-"), lines: {begin: 1}}
}]
