# Writes a Markdown table from JSON lines, a row for each font and rule, as for a job's summary:
#
#     t1check-all -q --format jsonl fonts >t1check.jsonl
#     jq -rs -f table.jq t1check.jsonl >t1check.md
#
# The last column has the first three places: a glyph and its step, an entry and its index, a waiver's glyph and rule.
def cell: @html | gsub("[|]"; "&#124;");
def place: [.key // .name // empty, .index // .step // .waived // empty] | map(tostring) | join(" ");

"| font | rule | lines | first places |",
"|---|---|---|---|",
(group_by([.file, .code, .text])[]
  | "| \(.[0].file // "-" | cell) | \(.[0] | [.code // empty, .text] | join(" ") | cell) | \(length) | \(map(place)[:3] | join(", ") | cell) |")
