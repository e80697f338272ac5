#!/bin/sh
# Tries docs/recipes and docs/RECIPES.md: what jq and awk make of JSON lines; the files for CI services and for pre-commit, with scripts in the place
# of what the network gives; and each command of the page, as it stands there, in a project made for it.

# shellcheck source=tests/tools/common.sh
. "$(dirname "$0")/common.sh"

recipes=$top/docs/recipes
page=$top/docs/RECIPES.md
version=$(sed -n 's/^pub const VERSION: &str = "\(.*\)";$/\1/p' "$top/crates/t1_forms/src/version.rt")

# Whether a tool is here. Names it and its package of Debian, once, where it isn't: TOOL PACKAGE.
named=' '
has() {
    command -v "$1" >/dev/null && return
    case $named in
        *" $1 "*) ;;
        *) echo "skipped: recipes.sh: what needs $1, which isn't here (Debian: $2)" ;;
    esac
    named="$named$1 "
    return 1
}

# What node runs: the programs of the release.
node_runs=''
if has node nodejs; then
    if [ "$(node -p 'process.versions.node.split(".")[0] >= 20')" = true ]; then
        node_runs=yes
    else
        echo "skipped: recipes.sh: what needs node 20 or later, since $(node --version) is here (Debian: nodejs)"
    fi
fi

# Each file says in its first line what it is, and the page links it.
for file in "$recipes"/*; do
    name=${file##*/}
    if sed 2q "$file" | grep -q '^\(#\|//\) [A-Z]' && grep -qF "recipes/$name" "$page"; then
        pass
    else
        fail "docs/recipes/$name: no words at its top, or not on the page"
    fi
done
for name in github.yml github-node.yml gitlab.yml gitlab-node.yml Jenkinsfile Jenkinsfile-node pre-commit-config.yaml; do
    if grep -qF "$version" "$recipes/$name"; then pass; else fail "docs/recipes/$name: not of version $version"; fi
done

# ---- what jq makes of JSON lines

mkdir shelf
echo 'A 1' | make_font 'shelf/a|b.pfa'
echo 'A 0' | make_font 'shelf/back\slash.pfa'
echo 'A 0' | make_font shelf/clean.pfa
cp "$fonts/E03.bin" shelf/cut.pfa
cp glyphs.pfb shelf/
echo 'A 2' | make_font shelf/two.pfa
echo 'B H02' >shelf/two.pfa.waivers
{ find ./shelf -iname '*.pf[ab]' -o -iname '*.t1' | sort && echo missing.pfb; } >fonts.txt
limited "$all" -q --format jsonl --files-from fonts.txt >shelf.jsonl 2>/dev/null

if has jq jq; then
    limited jq -s -f "$recipes/gitlab.jq" shelf.jsonl >shelf.json
    wanted <<'END'
["unchecked: read failed: no such file or folder","unchecked","blocker","missing.pfb"]
["glyph A step 4: P03 closepath without a path","P03","info","shelf/a|b.pfa"]
["refused: E03 segment cut short","E03","blocker","shelf/cut.pfa"]
["font BlueValues 1: Z07 zone too high for BlueScale","Z07","minor","shelf/glyphs.pfb"]
["font StdHW 0: Z01 value of another kind","Z01","major","shelf/glyphs.pfb"]
["glyph A step 12: P02 path not closed","P02","minor","shelf/glyphs.pfb"]
["glyph A step 6: P03 closepath without a path","P03","info","shelf/glyphs.pfb"]
["glyph B step 4: GE01 no endchar","GE01","major","shelf/glyphs.pfb"]
["glyph A step 4: P03 closepath without a path","P03","info","shelf/two.pfa"]
["glyph A step 5: P03 closepath without a path","P03","info","shelf/two.pfa"]
["waiver B H02: U01 waiver not used","U01","minor","shelf/two.pfa"]
--
END
    try 'gitlab.jq' 0 jq -c '.[] | [.description, .check_name, .severity, .location.path]' shelf.json
    wanted <<'END'
11 1
--
END
    try 'gitlab.jq, fingerprints' 0 jq -r '"\(map(.fingerprint) | unique | length) \(map(.location.lines.begin) | unique[])"' shelf.json
    wanted <<'END'
[]
--
END
    try 'gitlab.jq, nothing' 0 jq -s -f "$recipes/gitlab.jq" /dev/null
    wanted <<'END'
"font","unit","name","subrs","place","rule","level","text","reason"
"shelf/a|b.pfa","glyph","A","",4,"P03","tidy","closepath without a path",""
"shelf/cut.pfa","refused","","","","E03","must","segment cut short",""
"shelf/glyphs.pfb","font","BlueValues","",1,"Z07","should","zone too high for BlueScale",""
"shelf/glyphs.pfb","font","StdHW","",0,"Z01","must","value of another kind",""
"shelf/glyphs.pfb","glyph","A","5",6,"P03","tidy","closepath without a path",""
"shelf/glyphs.pfb","glyph","A","",12,"P02","should","path not closed",""
"shelf/glyphs.pfb","glyph","B","",4,"GE01","must","no endchar",""
"shelf/two.pfa","glyph","A","",4,"P03","tidy","closepath without a path",""
"shelf/two.pfa","glyph","A","",5,"P03","tidy","closepath without a path",""
"shelf/two.pfa","waiver","B","","H02","U01","should","waiver not used",""
"missing.pfb","unchecked","","","","","","read failed: no such file or folder",""
--
END
    try 'rows.jq' 0 jq -rn -f "$recipes/rows.jq" shelf.jsonl
    wanted <<'END'
| font | rule | lines | first places |
|---|---|---|---|
| missing.pfb | read failed: no such file or folder | 1 |  |
| shelf/a&#124;b.pfa | P03 closepath without a path | 1 | A 4 |
| shelf/cut.pfa | E03 segment cut short | 1 |  |
| shelf/glyphs.pfb | GE01 no endchar | 1 | B 4 |
| shelf/glyphs.pfb | P02 path not closed | 1 | A 12 |
| shelf/glyphs.pfb | P03 closepath without a path | 1 | A 6 |
| shelf/glyphs.pfb | Z01 value of another kind | 1 | StdHW 0 |
| shelf/glyphs.pfb | Z07 zone too high for BlueScale | 1 | BlueValues 1 |
| shelf/two.pfa | P03 closepath without a path | 2 | A 4, A 5 |
| shelf/two.pfa | U01 waiver not used | 1 | B H02 |
--
END
    try 'table.jq' 0 jq -rs -f "$recipes/table.jq" shelf.jsonl
fi

# ---- the files for CI services

# A release: what bin/install puts, as bin/release packs it, and of the package for node what runs. In the place of curl is a script that takes its
# files from there, in the place of npm one that unpacks them.
install_all
mkdir -p release services package/web
cp -R "$prefix" "t1check-$version"
rm "t1check-$version/share/t1check/installed"
cp -R "$top"/web/*.mjs "$top/web/modules" package/web/
tarball=t1check-$version-linux-x86_64.tar.gz node_package=t1check-$version.tgz
tar -czf "release/$tarball" "t1check-$version"
tar -czf "release/$node_package" package
(cd release && { sha256sum "$tarball" "$node_package" && echo "$(printf '%064d' 0)  t1check_${version}_amd64.deb"; } >SHA256SUMS)
cat >services/curl <<'END'
#!/bin/sh
[ ! -e "$RELEASE/none" ] || exit 22
for word; do
    case $word in https://*) cp "$RELEASE/${word##*/}" . || exit 22 ;; esac
done
END
cat >services/npm <<'END'
#!/bin/sh
[ "$1 $2" = 'install -g' ] || exit 1
prefix=$HOME
[ "$3" != --prefix ] || { prefix=$4 && shift 2; }
mkdir -p "$prefix/bin" && tar -xzf "$3" -C "$prefix" || exit 1
for program in "$prefix"/package/web/t1*.mjs; do
    ln -sf "$program" "$prefix/bin/$(basename "$program" .mjs)"
done
END
printf '#!/bin/sh\n' >services/apt-get
chmod +x services/*
RELEASE=$scratch/release
export RELEASE

# Makes the release's checksums wrong, and right again.
spoil_sums() {
    mv release/SHA256SUMS release/right
    sed 's/^[0-9a-f]/x/' release/right >release/SHA256SUMS
}
mend_sums() {
    mv release/right release/SHA256SUMS
}

# A project with a clean font, one with a line and one that is refused.
make_project() {
    rm -rf "$1"
    mkdir -p "$1/fonts" "$1/ci"
    cp shelf/clean.pfa shelf/cut.pfa edge.pfb "$1/fonts/"
    cp "$recipes/gitlab.jq" "$1/ci/"
}

# Writes the shell's lines of a file of YAML, one file a part, and the variables as exports: FILE FOLDER. A part that runs after a failed one too is
# named so.
cat >parts.py <<'END'
import os, shlex, sys, yaml
document = yaml.safe_load(open(sys.argv[1]))
folder = sys.argv[2]
os.makedirs(folder)
job = document["jobs"]["fonts"] if "jobs" in document else document["fonts"]
given = job.get("env") or job.get("variables") or {}
with open(os.path.join(folder, "variables"), "w") as file:
    for name, value in given.items():
        file.write(f"export {name}={shlex.quote(str(value))}\n")
    if "parallel" in job:
        file.write(f"export CI_NODE_TOTAL={job['parallel']}\n")
if "steps" in job:
    parts = [(step["name"], step["run"], ".always" if "always()" in step.get("if", "") else "") for step in job["steps"] if "run" in step]
else:
    parts = [("before", "\n".join(job["before_script"]), ""), ("script", "\n".join(job["script"]), "")]
for number, (name, text, runs) in enumerate(parts):
    with open(os.path.join(folder, f"{number}{runs}"), "w") as file:
        file.write(f"# {name}\n{text}\n")
END

# Runs such parts in a project, each as its service does, and prints what each ends with: FOLDER PROJECT.
cat >run_parts <<'END'
cd "$2" || exit
. "$1/variables"
failed=''
for part in "$1"/[0-9]*; do
    [ -z "$failed" ] || [ "${part%.always}" != "$part" ] || continue
    [ ! -s "$GITHUB_PATH" ] || PATH=$(cat "$GITHUB_PATH"):$PATH
    bash --noprofile --norc -eo pipefail "$part" >out 2>err
    status=$?
    [ "$status" -eq 0 ] || failed=yes
    echo "$(sed -n '1s/^# //p' "$part"): status $status"
    cat out
done
END
HOME=$scratch/agent
RUNNER_TEMP=$scratch/agent/temp
GITHUB_PATH=$scratch/agent/path
export HOME RUNNER_TEMP GITHUB_PATH
mkdir -p "$RUNNER_TEMP"

can_read_yaml=''
if ! has python3 python3 || ! python3 -c 'import yaml' 2>/dev/null; then
    echo "skipped: recipes.sh: files of YAML, since python3 with yaml isn't here (Debian: python3-yaml)"
elif has bash bash; then
    can_read_yaml=yes
fi
if [ -n "$can_read_yaml" ]; then
    for file in "$recipes"/*.yml "$recipes"/*.yaml "$top/.pre-commit-hooks.yaml"; do
        wanted <<'END'
--
END
        try "${file##*/} is YAML" 0 python3 -c 'import sys, yaml; yaml.safe_load(open(sys.argv[1]))' "$file"
    done

    make_project github
    python3 parts.py "$recipes/github.yml" "$scratch/github.parts"
    wanted <<END
Get t1check: status 0
$tarball: OK
Put t1check on the path: status 0
Check the fonts: status 2
::error file=fonts/cut.pfa,line=1,title=E03 segment cut short::refused: E03 segment cut short
::warning file=fonts/edge.pfb,line=1,title=H02 stems overlap::H02 stems overlap × 1: A
Write what was found: status 0
--
END
    try 'github.yml' 0 env PATH="$scratch/services:$PATH" sh run_parts "$scratch/github.parts" "$scratch/github"
    wanted <<'END'
https://github.com/OWNER/REPOSITORY/blob/v1.0.0/docs/RULES.md#e03-segment-cut-short
https://github.com/OWNER/REPOSITORY/blob/v1.0.0/docs/RULES.md#h02-stems-overlap
--
END
    cp wanted sarif.wanted
    # shellcheck disable=SC2016
    uris='.runs[0] | .tool.driver.rules as $rules | .results[] | $rules[.ruleIndex].helpUri'
    ! has jq jq || try 'github.yml: SARIF' 0 jq -r "$uris" github/t1check.sarif
    wanted <<'END'
{'contents': 'read', 'actions': 'read', 'security-events': 'write'}
--
END
    try 'github.yml: permissions' 0 python3 -c 'import sys, yaml; print(yaml.safe_load(open(sys.argv[1]))["permissions"])' "$recipes/github.yml"
    echo 'the other bytes' >"$RUNNER_TEMP/$tarball"
    spoil_sums
    wanted <<'END'
Get t1check: status 1
--
END
    # shellcheck disable=SC2016
    try 'github.yml: a tarball with another checksum' 0 sh -c 'PATH=$0/services:$PATH sh run_parts "$0/github.parts" "$0/github" | sed 1q' "$scratch"
    mend_sums
    rm -f "$GITHUB_PATH"

    if [ -n "$node_runs" ]; then
        make_project node
        # What these fonts lack in edition 3 is known.
        for font in clean.pfa edge.pfb; do
            printf '1 %s fonts/%s\n' 'Z12 font BlueValues' "$font" 'F15 font FontMatrix' "$font" 'F16 font FontBBox' "$font"
        done >node/known.txt
        python3 parts.py "$recipes/github-node.yml" "$scratch/node.parts"
        wanted <<END
Leave line ends as they are: status 0
Get t1check: status 0
$(grep "$node_package" release/SHA256SUMS)
Check the fonts: status 2
fonts/cut.pfa: refused: E03 segment cut short
fonts/edge.pfb: 4: glyph A - 9 H02 stems overlap
Write what was found: status 0
--
END
        try 'github-node.yml' 0 env PATH="$HOME/bin:$scratch/services:$PATH" sh run_parts "$scratch/node.parts" "$scratch/node"
        cp sarif.wanted wanted
        ! has jq jq || try 'github-node.yml: SARIF' 0 jq -r "$uris" node/t1check.sarif
        rm -r "${HOME:?}/bin" "$HOME/package"
        spoil_sums
        wanted <<'END'
Get t1check: status 1
--
END
        # shellcheck disable=SC2016
        try 'github-node.yml: a package with another checksum' 0 sh -c '
            PATH=$0/services:$PATH sh run_parts "$0/node.parts" "$0/node" | sed -n 2p && [ ! -e "$HOME/bin" ]' "$scratch"
        mend_sums
    fi

    if has jq jq; then
        make_project gitlab
        python3 parts.py "$recipes/gitlab.yml" "$scratch/gitlab.parts"
        for index in 1 2 3 4; do
            CI_NODE_INDEX=$index PATH="$scratch/services:$PATH" limited sh run_parts "$scratch/gitlab.parts" "$scratch/gitlab" </dev/null
            # Later runs take the program from the cache.
            : >release/none
            cat gitlab/t1check.json >>gitlab.json
            cat gitlab/t1check.xml >>gitlab.xml
        done >gitlab.runs
        rm release/none
        sort gitlab.runs | uniq -c | sed 's/^ *//' >gitlab.counts
        wanted <<END
4 before: status 0
2 script: status 0
1 script: status 1
1 script: status 2
1 $tarball: OK
--
END
        try 'gitlab.yml' 0 cat gitlab.counts
        wanted <<'END'
refused: E03 segment cut short
glyph A step 9: H02 stems overlap
--
END
        try 'gitlab.yml: code quality' 0 jq -r '.[].description' gitlab.json
        wanted <<'END'
<testcase classname="t1check-all" name="fonts/clean.pfa" file="fonts/clean.pfa"></testcase>
<testcase classname="t1check-all" name="fonts/cut.pfa" file="fonts/cut.pfa"><error message="refused: E03 segment cut short">refused: E03 segment cut short
<testcase classname="t1check-all" name="fonts/edge.pfb" file="fonts/edge.pfb"><failure message="1: glyph A - 9 H02 stems overlap">1: glyph A - 9 H02 stems overlap
<testsuite name="t1check-all">
<testsuite name="t1check-all">
<testsuite name="t1check-all">
<testsuite name="t1check-all">
<testsuites>
<testsuites>
<testsuites>
<testsuites>
--
END
        try 'gitlab.yml: tests' 0 sh -c 'grep "^<test" gitlab.xml | sort'
    fi
    if [ -n "$node_runs" ]; then
        make_project gitlab_node
        python3 parts.py "$recipes/gitlab-node.yml" "$scratch/gitlab_node.parts"
        wanted <<END
before: status 0
$node_package: OK
script: status 2
--
END
        try 'gitlab-node.yml' 0 env PATH="$HOME/bin:$scratch/services:$PATH" sh run_parts "$scratch/gitlab_node.parts" "$scratch/gitlab_node"
        wanted <<'END'
3
--
END
        try 'gitlab-node.yml: tests' 0 grep -c '^<testcase ' gitlab_node/t1check.xml
        rm -r "${HOME:?}/bin" "$HOME/package"
    fi
fi

# A pipeline for Jenkins: its variables, and what is between its quotes, which has no backslash that Groovy would read.
cat >run_jenkins <<'END'
cd "$2" || exit
. "$1/variables"
for part in "$1"/[0-9]*; do
    sh -xe "$part" 2>err
    echo "status $?"
done
END
# Makes a project, and such parts of a file: FILE PROJECT.
make_jenkins() {
    make_project "$2"
    mkdir "$2.parts"
    awk -v q="'" -v folder="$scratch/$2.parts" '
        $1 ~ /^[A-Z]+$/ && $2 == "=" { print "export " $1 "=" $3 >(folder "/variables") }
        index($0, q q q) { within = !within; if (within) part = folder "/" number++; next }
        within { print >part }
    ' "$recipes/$1"
    wanted <<'END'
--
END
    try "$1: backslashes" 1 grep -nF \\ "$recipes/$1"
}
rm -rf "$HOME/t1check-$version"
make_jenkins Jenkinsfile jenkins
wanted <<END
$tarball: OK
status 0
status 0
--
END
try 'Jenkinsfile' 0 env PATH="$scratch/services:$PATH" sh run_jenkins "$scratch/jenkins.parts" "$scratch/jenkins"
wanted <<'END'
status 0
status 0
--
END
: >release/none
try 'Jenkinsfile, once more' 0 env PATH="$scratch/services:$PATH" sh run_jenkins "$scratch/jenkins.parts" "$scratch/jenkins"
rm release/none
wanted <<'END'
<?xml version="1.0" encoding="UTF-8"?>
<testsuites>
<testsuite name="t1check-all">
<testcase classname="t1check-all" name="fonts/clean.pfa" file="fonts/clean.pfa"></testcase>
<testcase classname="t1check-all" name="fonts/cut.pfa" file="fonts/cut.pfa"><error message="refused: E03 segment cut short">refused: E03 segment cut short
</error></testcase>
<testcase classname="t1check-all" name="fonts/edge.pfb" file="fonts/edge.pfb"><failure message="1: glyph A - 9 H02 stems overlap">1: glyph A - 9 H02 stems overlap
</failure></testcase>
</testsuite>
</testsuites>
--
END
try 'Jenkinsfile: tests' 0 cat jenkins/t1check.xml
ln -s nowhere jenkins/fonts/lost.pfb
wanted <<'END'
status 0
status 1
--
END
try 'Jenkinsfile, a font that is missing' 0 sh run_jenkins "$scratch/jenkins.parts" "$scratch/jenkins"
if [ -n "$node_runs" ]; then
    make_jenkins Jenkinsfile-node jenkins_node
    wanted <<END
$(grep "$node_package" release/SHA256SUMS)
status 0
status 0
--
END
    try 'Jenkinsfile-node' 0 env PATH="$scratch/services:$PATH" sh run_jenkins "$scratch/jenkins_node.parts" "$scratch/jenkins_node"
    wanted <<'END'
3
--
END
    try 'Jenkinsfile-node: tests' 0 grep -c '^<testcase ' jenkins_node/t1check.xml
    rm -r "$HOME/t1check-node-$version"
fi

# ---- the page's commands, in a project that has what they name

# Blocks of the page's indented lines, a file each.
mkdir blocks
awk '
    /^    / { if (!within) { within = 1; file = sprintf("blocks/%03d", ++number) } print substr($0, 5) >file; next }
    { within = 0 }
' "$page"
HOME=$scratch/user
export HOME
make_project project
mkdir -p project/more project/fonts/old "$HOME"
for folder in bin docs web; do
    ln -s "$top/$folder" "project/$folder"
done
cp edge.pfb project/more/
cp edge.pfb project/fonts/a.pfb
cp edge.pfb project/fonts/old/x-draft.pfb
echo 'A 8' | make_font project/font.pfb
echo '2/:' >project/hosts
for part in 1 2 3 4; do
    echo "$part fonts: $part clean, 0 with faults, 0 refused, 0 not checked" >"project/errors.$part"
done
cd project || exit 1
INDEX=1 COUNT=2
SLURM_ARRAY_TASK_ID=1 SLURM_ARRAY_TASK_COUNT=4
GIT_CONFIG_GLOBAL=$HOME/gitconfig
PRE_COMMIT_HOME=$scratch/pre-commit
PATH=$prefix/bin:$HOME/.local/bin:$PATH
export INDEX COUNT SLURM_ARRAY_TASK_ID SLURM_ARRAY_TASK_COUNT GIT_CONFIG_GLOBAL PRE_COMMIT_HOME PATH
if has git git; then
    git config --global user.name tests
    git config --global user.email tests@localhost
    git init -q . && git add fonts && git commit -q -m 'fonts'
fi

# Runs a line, and fails where it ends otherwise than with the statuses of a check, or names an option or a tool that isn't there.
run_line() {
    limited sh -c "$1" >"$scratch/out" 2>"$scratch/err" </dev/null
    given=$?
    if [ "$given" -gt 2 ] || grep -qi "not found\|says how it is used\|usage:\|unknown" "$scratch/err"; then
        # Of parallel and awk the status is a count, or the greatest of those that they counted.
        case $1 in parallel*) [ "$given" -gt 8 ] || { pass; return; } ;; esac
        fail "docs/RECIPES.md: status $given of: $1"
        cat "$scratch/err"
    else
        pass
    fi
}

lines_run=0
for block in "$scratch"/blocks/*; do
    case $(head -n 1 "$block") in
        '# .t1check.toml')
            cp "$block" .t1check.toml
            run_line 'bin/t1check-all -q fonts'
            rm -f .t1check.toml
            ;;
        *'checked: '*)
            cp "$block" Makefile
            ! has make make || run_line 'make font.checked || [ $? -eq 2 ]'
            ;;
        '#!/bin/sh')
            cp "$block" job
            for part in 1 2 3 4; do
                SLURM_ARRAY_TASK_ID=$part run_line 'sh ./job'
            done
            ;;
        page:*)
            run_line "$(sed -n 's/^ *- \(mkdir .*\)/\1/p' "$block")"
            [ -z "$can_read_yaml" ] || run_line "python3 -c 'import sys, yaml; yaml.safe_load(open(sys.argv[1]))' '$block'"
            ;;
        '- name:'*)
            [ -z "$can_read_yaml" ] || run_line "python3 -c 'import sys, yaml; yaml.safe_load(open(sys.argv[1]))' '$block'"
            ;;
        '3 fonts:'*)
            limited "$all" -q --baseline known.txt --update-baseline fonts/edge.pfb >"$scratch/out" 2>&1
            limited "$all" --baseline known.txt fonts/clean.pfa fonts/edge.pfb font.pfb 2>&1 >/dev/null | grep '^[0-9]* fonts: ' >counts
            if cmp -s counts "$block"; then
                pass
            else
                fail "docs/RECIPES.md: another summary than $(cat "$block")"
                cat counts
            fi
            ;;
        *)
            while IFS= read -r line; do
                lines_run=$((lines_run + 1))
                case $line in
                    parallel*) has parallel parallel || continue ;;
                    node*) [ -n "$node_runs" ] || continue ;;
                    # tests/release.sh runs these, of the package that it makes.
                    npm* | npx*) continue ;;
                    jq* | *'| jq'*) has jq jq || continue ;;
                    man*) has man man-db || continue ;;
                    'git '*) has git git || continue ;;
                    "awk 'NR"*) [ -e jobs.log ] || continue ;;
                    pre-commit*)
                        has pre-commit pre-commit || continue
                        cp "$recipes/pre-commit-config.yaml" .pre-commit-config.yaml
                        git add .pre-commit-config.yaml
                        ;;
                    *mutool*)
                        has mutool mupdf-tools || continue
                        { printf '%%PDF-1.4\n1 0 obj\n<</Type/Catalog/Pages 2 0 R>>\nendobj\n2 0 obj\n<</Type/Pages/Kids[3 0 R]/Count 1>>\nendobj\n'
                          printf '3 0 obj\n<</Type/Page/Parent 2 0 R/MediaBox[0 0 9 9]/Resources<</Font<</F 4 0 R>>>>>>\nendobj\n'
                          printf '4 0 obj\n<</Type/Font/Subtype/Type1/BaseFont/T/FontDescriptor 12 0 R>>\nendobj\n'
                          printf '12 0 obj\n<</Type/FontDescriptor/FontName/T/FontFile 5 0 R>>\nendobj\n'
                          printf '5 0 obj\n<</Length %d>>stream\n' "$(wc -c <font.pfb)"
                          cat font.pfb
                          printf '\nendstream\nendobj\ntrailer\n<</Root 1 0 R>>\n'; } >document.pdf
                        run_line "$line"
                        cd extracted || continue
                        if [ -f font-0012.pfa ]; then pass; else fail 'docs/RECIPES.md: mutool wrote no font-0012.pfa'; fi
                        continue
                        ;;
                    cfftot1*)
                        has cfftot1 lcdf-typetools || continue
                        otf=$(find /usr/share/texmf/fonts /usr/share/fonts -name '*.otf' 2>/dev/null | sort | head -n 1)
                        [ -n "$otf" ] || { echo 'skipped: recipes.sh: cfftot1, without an OpenType font (Debian: lmodern)'; continue; }
                        cp "$otf" font-0012.cff
                        ;;
                esac
                run_line "$line"
            done <"$block"
            cd "$scratch/project" || exit 1
            ;;
    esac
done
if [ "$lines_run" -ge 55 ]; then pass; else fail "docs/RECIPES.md: only $lines_run commands were read"; fi

# ---- the hooks of pre-commit

cd "$scratch" || exit 1
if has pre-commit pre-commit && has git git; then
    wanted <<'END'
--
END
    try 'pre-commit-config.yaml, judged by pre-commit' 0 pre-commit validate-config "$recipes/pre-commit-config.yaml"
    try '.pre-commit-hooks.yaml, judged by pre-commit' 0 pre-commit validate-manifest "$top/.pre-commit-hooks.yaml"

    # Commits changes of a file each to the project of a folder, $1, with a font, $2; prints whether the hook ran, and lines and summaries that it
    # printed.
    cat >commits <<'END'
cd "$1" || exit
commit() {
    git commit -q -m "$1" >commit.log 2>&1
    echo "$1: status $?"
    sed -n 's/^t1check.*[.)]\(Skipped\|Passed\|Failed\)$/\1/p; /: [0-9]*: \|: refused: \|fonts*: [0-9]/p' commit.log
    rm commit.log
}
git add . && commit 'clean fonts'
cp "$2" fonts/edge.pfb
git add . && commit 'a font with a line'
echo 'A H02' >fonts/edge.pfb.waivers
git add . && commit 'its waivers too'
echo words >notes.txt
git add . && commit 'another file'
echo 'B H02' >>fonts/edge.pfb.waivers
git add . && commit 'waivers alone'
git reset -q --hard && echo '# words' >.t1check.toml
git add .t1check.toml && commit 'settings alone'
git rm -q fonts/edge.pfb.waivers && commit 'waivers that go'
END
    # Makes a project with a clean font, and the hooks of a configuration on standard input.
    make_hooked() {
        make_project hooked
        rm -rf hooked/ci hooked/fonts/cut.pfa hooked/fonts/edge.pfb
        cat >hooked/.pre-commit-config.yaml
        (cd hooked && git init -q . && pre-commit install >/dev/null)
    }
    make_hooked <"$recipes/pre-commit-config.yaml"
    cat >hooked.wanted <<'END'
clean fonts: status 0
Passed
a font with a line: status 1
Failed
fonts/edge.pfb: 1: glyph A - 9 H02 stems overlap
its waivers too: status 0
Passed
another file: status 0
Skipped
waivers alone: status 1
Failed
fonts/edge.pfb: 1: waiver B H02 U01 waiver not used
settings alone: status 0
Passed
waivers that go: status 0
Skipped
--
END
    cp hooked.wanted wanted
    try 'commits with the hook of pre-commit-config.yaml' 0 sh commits hooked "$scratch/edge.pfb"

    # A repository of the hooks that this one offers, where nothing is built, so that node runs the programs.
    mkdir -p offered/docs offered/web
    cp -R "$top/bin" "$top/.pre-commit-hooks.yaml" offered/
    cp -R "$top"/web/*.mjs "$top/web/modules" offered/web/
    cp "$top/docs/RULES.md" offered/docs/
    (cd offered && git init -q . && git add . && git commit -q -m hooks && git tag v1.0.0)
    { echo repos: && sed -n '/^  # - repo: /,$ s/^  # /  /p' "$recipes/pre-commit-config.yaml" | sed "s|https://.*|$scratch/offered|"; } >node.yaml
    wanted <<END
repos:
  - repo: $scratch/offered
    rev: v1.0.0
    hooks:
      - id: t1check-node
        args: [fonts]
--
END
    try 'the second hook of pre-commit-config.yaml' 0 cat node.yaml
    # As it is there, and each without arguments.
    cp node.yaml '1 t1check-node'
    for hook in t1check t1check-node; do
        sed "/args:/d; s/t1check-node/$hook/" node.yaml >"2 $hook"
    done
    [ -z "$node_runs" ] || for hook in [12]' '*; do
        make_hooked <"$hook"
        cp hooked.wanted wanted
        try "commits with the hook $hook" 0 sh commits hooked "$scratch/edge.pfb"
    done
fi

finish
