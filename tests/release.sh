#!/bin/sh
# Tries bin/release over programs and a page that are built: its files, that a second run makes the same bytes, the package for node as npm
# installs it, and that of Debian in a root with these packages alone: libc6, and a shell, coreutils and awk. Names what fails and what is
# skipped; the last line counts passed and failed.
set -u
LC_ALL=C
export LC_ALL

top=$(CDPATH='' cd -P -- "$(dirname "$0")/.." && pwd -P) || exit 1
fonts=$top/tests/program/fonts
scratch=$(mktemp -d) || exit 1
trap 'rm -rf "$scratch"' EXIT
trap 'exit 1' HUP INT TERM
passed=0
failed=0

pass() {
    passed=$((passed + 1))
}

fail() {
    failed=$((failed + 1))
    printf 'failed: %s\n' "$1"
}

finish() {
    printf '%d passed, %d failed\n' "$passed" "$failed"
    [ "$failed" -eq 0 ]
    exit
}

for tool in dpkg-deb:dpkg wasm-opt:binaryen; do
    command -v "${tool%:*}" >/dev/null || {
        echo "skipped: a release, since ${tool%:*} isn't here (Debian: ${tool#*:})"
        finish
    }
done

# The page and the modules of the repository are left as they are.
cp -Rp "$top/docs/t1check.html" "$top/web/modules" "$scratch/"
restore() {
    cmp -s "$scratch/t1check.html" "$top/docs/t1check.html" || cp "$scratch/t1check.html" "$top/docs/t1check.html"
    diff -rq "$scratch/modules" "$top/web/modules" >/dev/null || cp "$scratch"/modules/* "$top/web/modules/"
}
for folder in one two; do
    SOURCE_DATE_EPOCH=1000000000 "$top/bin/release" "$scratch/$folder" >"$scratch/out" 2>"$scratch/err" || {
        cat "$scratch/out" "$scratch/err"
        fail "bin/release $folder"
        restore
        finish
    }
done
restore
deb=$(ls "$scratch"/one/*.deb) tarball=$(ls "$scratch"/one/*.tar.gz) npm_package=$(ls "$scratch"/one/*.tgz)

# The text that is wanted, on standard input.
wanted() {
    cat >"$scratch/wanted"
}

# Compares the text that is given, on standard input, with what was wanted last: NAME.
compare() {
    cat >"$scratch/given"
    if diff "$scratch/wanted" "$scratch/given"; then pass; else fail "$1 (< wanted, > given)"; fi
}

# Compares what an installed program prints with what that of the repository prints: STATUS TOOL WORDS... The words of $place go before its name.
try() {
    status=$1 tool=$2
    shift 2
    "$top/bin/$tool" "$@" >"$scratch/wanted" 2>&1
    # shellcheck disable=SC2086
    $place/$tool "$@" >"$scratch/given" 2>&1
    given=$?
    if [ "$given" -eq "$status" ] && cmp "$scratch/wanted" "$scratch/given"; then
        pass
    else
        fail "$place/$tool $*: status $given, $(head -n 3 "$scratch/given")"
    fi
}

if diff -r "$scratch/one" "$scratch/two"; then pass; else fail 'two releases differ'; fi
if (cd "$scratch/one" && sha256sum --quiet -c SHA256SUMS); then pass; else fail 'SHA256SUMS'; fi

# What the tarball has runs from any folder.
mkdir "$scratch/unpacked" && tar -C "$scratch/unpacked" -xzf "$tarball"
unpacked=$(echo "$scratch"/unpacked/t1check-*)
"$top/bin/t1check" "$fonts/H02.pfb" >"$scratch/wanted"
"$unpacked/bin/t1check" "$fonts/H02.pfb" >"$scratch/given"
if cmp "$scratch/wanted" "$scratch/given"; then pass; else fail 't1check of the tarball'; fi
"$unpacked/bin/t1check-all" -q --only H02 "$fonts/H02.pfb" >"$scratch/given"
if [ -s "$scratch/given" ]; then pass; else fail 't1check-all of the tarball'; fi

# Prints the links of its documents that lead to no file. The others are in $scratch/links.
documents=$unpacked/share/doc/t1check
broken_links() (
    cd "$documents" && for page in *.md docs/*.md; do
        grep -oE '\]\([^)]*\)|src="[^"]*"' "$page" | sed 's/^](//; s/^src="//; s/[)"]$//; s/#.*//' | sort -u | while IFS= read -r link; do
            case $link in '' | http*) continue ;; esac
            if [ -e "$(dirname "$page")/$link" ]; then echo "$page $link" >>"$scratch/links"; else echo "$page: no file $link"; fi
        done
    done
)
wanted </dev/null
broken_links >"$scratch/text"
compare 'links of the documents' <"$scratch/text"
wanted <<'END'
README.md docs/GUIDE.md
README.md docs/pictures/letter.svg
docs/GUIDE.md RULES.md
docs/RECIPES.md recipes/github.yml
END
grep -xF -f "$scratch/wanted" "$scratch/links" >"$scratch/text"
compare 'links that are read' <"$scratch/text"

# ---- the licences of what is linked in

kit=$(dirname "$(dirname "$(readlink -f "$(command -v rt)")")")

# The kit's libraries that the repository's crates use, and those that these use.
linked() {
    seen=' '
    # shellcheck disable=SC2046
    set -- $(sed 's/^.*://' "$top/crates.txt")
    while [ $# -gt 0 ]; do
        library=$1
        shift
        case $seen in *" $library "*) continue ;; esac
        seen="$seen$library "
        # shellcheck disable=SC2046
        [ ! -f "$kit/rlibs/$library.rlib/format" ] || set -- "$@" $(sed -n 's/^dep //p' "$kit/rlibs/$library.rlib/format")
    done
    echo "$seen"
}

# A library that has a licence is named, and each holder of its copyright.
found=0
for library in $(linked); do
    for file in "$kit/rattle/$library/LICENSE" "$kit/rattle/$library/LICENSE-MIT"; do
        [ -f "$file" ] || continue
        found=$((found + 1))
        if grep -q " rattle/$library/\*\$" "$documents/copyright"; then pass; else fail "copyright: rattle/$library isn't named"; fi
        grep '^Copyright (c)' "$file" >"$scratch/holders"
        while IFS= read -r line; do
            if grep -qF -e "$line" "$documents/copyright"; then pass; else fail "copyright: rattle/$library has $line"; fi
        done <"$scratch/holders"
    done
done
[ "$found" -ge 10 ] || fail "licences of the kit aren't read: $found"

# The licences that files are under, and those whose text is there.
{
    sed -n 's/^License: //p' "$documents/copyright" | sed 's/ or /\n/; s/ and /\n/' | sort -u
    sed -n '/^License: / { N; s/^License: \(.*\)\n .*/text of \1/p; }' "$documents/copyright"
} >"$scratch/text"
wanted <<'END'
Apache-2.0
Expat
Unicode-3.0
text of Expat
text of Apache-2.0
text of Unicode-3.0
END
compare 'licences that copyright names' <"$scratch/text"
for file in LICENSE-MIT LICENSE-APACHE; do
    if grep -qx ' *Copyright 2026 the t1check authors' "$documents/$file"; then pass; else fail "$file names nobody"; fi
done

# ---- the package for node

tar -tvzf "$npm_package" | awk '!/\/$/ && $6 !~ /^package\/docs\// { print $1, $6 }' >"$scratch/text"
wanted <<'END'
-rw-r--r-- package/CHANGELOG.md
-rw-r--r-- package/LICENSE-APACHE
-rw-r--r-- package/LICENSE-MIT
-rw-r--r-- package/README.md
-rw-r--r-- package/commit
-rw-r--r-- package/copyright
-rw-r--r-- package/man/t1check-all.1
-rw-r--r-- package/man/t1check-rules.7
-rw-r--r-- package/man/t1check.1
-rw-r--r-- package/man/t1draw.1
-rw-r--r-- package/man/t1explain.1
-rw-r--r-- package/package.json
-rw-r--r-- package/web/modules/t1check.wasm.gz
-rw-r--r-- package/web/modules/t1check_all.wasm.gz
-rw-r--r-- package/web/modules/t1draw.wasm.gz
-rwxr-xr-x package/web/t1check-all.mjs
-rwxr-xr-x package/web/t1check.mjs
-rwxr-xr-x package/web/t1draw.mjs
-rwxr-xr-x package/web/t1explain.mjs
-rw-r--r-- package/web/wasi.mjs
END
compare 'files of the package for node' <"$scratch/text"
tar -C "$scratch" -xzf "$npm_package"
if diff -r "$documents/docs" "$scratch/package/docs"; then pass; else fail 'documents of the package for node'; fi
git -C "$top" rev-parse --short HEAD | wanted
compare 'commit of the package for node' <"$scratch/package/commit"

# Runs the commands of docs/RECIPES.md that install it, in a project with fonts, without a network and what is the user's.
run_recipe() (
    cd "$scratch/project" || exit
    HOME=$scratch/home npm_config_prefix=$scratch/npm npm_config_offline=true
    export HOME npm_config_prefix npm_config_offline
    sed -n '/^## Install$/,/^## /s/^    \(np[mx] [^#]*[^ #]\).*/\1/p' "$top/docs/RECIPES.md" | while IFS= read -r line; do
        sh -c "$line" >"$scratch/log" 2>&1 </dev/null
        echo "$line: status $?"
    done
)

try_npm() {
    wanted <<'END'
name "t1check"
version "1.0.0"
description "proved linter for Adobe Type 1 fonts"
license "MIT OR Apache-2.0"
engines {"node":">=20"}
bin {"t1check":"web/t1check.mjs","t1check-all":"web/t1check-all.mjs","t1draw":"web/t1draw.mjs","t1explain":"web/t1explain.mjs"}
man ["man/t1check.1","man/t1check-all.1","man/t1draw.1","man/t1explain.1","man/t1check-rules.7"]
END
    node -e 'for (const [name, value] of Object.entries(JSON.parse(fs.readFileSync(process.argv[1])))) console.log(name, JSON.stringify(value))' \
        "$scratch/package/package.json" >"$scratch/text"
    compare package.json <"$scratch/text"
    mkdir -p "$scratch/home" "$scratch/project/fonts"
    cp "$fonts/H02.pfb" "$fonts/Z05.pfb" "$scratch/project/fonts"
    cp "$npm_package" "$scratch/project"
    wanted <<'END'
npm install -g ./t1check-1.0.0.tgz: status 0
npm install ./t1check-1.0.0.tgz: status 0
npm ci: status 0
npx t1check-all fonts: status 1
END
    run_recipe >"$scratch/text"
    compare 'commands of docs/RECIPES.md' <"$scratch/text"
    if grep -q '"t1check": "file:t1check-1.0.0.tgz"' "$scratch/project/package.json"; then pass; else fail 'a project that has the package for node'; fi
    place=$scratch/npm/bin
    try 0 t1check --help
    try 1 t1check "$fonts/H02.pfb"
    try 1 t1check-all -q "$scratch/project/fonts"
    try 0 t1draw A "$fonts/H02.pfb"
    try 0 t1explain H02
    for page in man1/t1check.1 man1/t1check-all.1 man1/t1draw.1 man1/t1explain.1 man7/t1check-rules.7; do
        if [ -s "$scratch/npm/share/man/$page" ]; then pass; else fail "npm: the manual page $page"; fi
    done
    HOME=$scratch/home npm uninstall -g --prefix "$scratch/npm" t1check >"$scratch/log" 2>&1 || cat "$scratch/log"
    find "$scratch/npm" ! -type d >"$scratch/text"
    wanted </dev/null
    compare 'npm: what removing leaves' <"$scratch/text"
}
if [ "$(command -v npm >/dev/null && node -p 'process.versions.node.split(".")[0] >= 20')" = true ]; then
    try_npm
else
    echo "skipped: the package for node, since npm with node 20 or later isn't here (Debian: npm)"
fi

# ---- the package of Debian

extracted=$scratch/extracted
dpkg-deb -x "$deb" "$extracted"
diff -r "$documents" "$extracted/usr/share/doc/t1check" >"$scratch/text"
echo "Only in $extracted/usr/share/doc/t1check: changelog.gz" | wanted
compare 'documents of the package of Debian' <"$scratch/text"
gzip -d -c "$extracted/usr/share/doc/t1check/changelog.gz" >"$scratch/text"
wanted <<'END'
t1check (1.0.0) unstable; urgency=medium

  * Version 1.0.0. CHANGELOG.md says what is new.

 -- Fengyldo maintainers <maintainers@users.noreply.fengyldo.example>  Sun, 09 Sep 2001 01:46:40 +0000
END
compare changelog.gz <"$scratch/text"
{ find "$extracted/usr/share/zsh" -type f && dpkg-deb -f "$deb" Section; } >"$scratch/text"
wanted <<END
$extracted/usr/share/zsh/vendor-completions/_t1check
fonts
END
compare "completions of zsh, and Debian's section" <"$scratch/text"

# The programs keep their symbols. Any other error of lintian fails.
if command -v lintian >/dev/null; then
    sed -n 's/^release: lintian: //p' "$scratch/err" | grep -v '^E: t1check: unstripped-binary-or-object ' >"$scratch/words"
    sed 's/^/lintian: /' "$scratch/words"
    if grep -q '^E: ' "$scratch/words"; then fail 'lintian finds an error in the package'; else pass; fi
else
    echo "skipped: what lintian says of the package, since it isn't here (Debian: lintian)"
fi

# ---- the package of Debian, in a root of its own

if [ "$(id -u)" -ne 0 ] || ! command -v chroot >/dev/null || [ ! -f /var/lib/dpkg/status ]; then
    echo 'skipped: the package in a root of its own, since this is not root on Debian'
    finish
fi

# The packages that those stand on, too.
needed() {
    seen=' '
    set -- libc6 dash coreutils mawk grep sed diffutils
    while [ $# -gt 0 ]; do
        package=$1
        shift
        case $seen in *" $package "*) continue ;; esac
        seen="$seen$package "
        # shellcheck disable=SC2016,SC2046
        set -- "$@" $(dpkg-query -W -f '${Pre-Depends}, ${Depends}\n' "$package" 2>/dev/null | tr ',' '\n' | sed 's/|.*//; s/(.*//; s/:any//; s/ //g')
    done
    for package in $seen; do
        case $package in debconf* | debianutils) ;; *) echo "$package" ;; esac
    done
}

root=$scratch/root
mkdir -p "$root/usr/bin" "$root/usr/sbin" "$root/usr/lib" "$root/usr/lib64" "$root/tmp" "$root/dev" "$root/var/lib/dpkg/info" "$root/var/lib/dpkg/updates"
for folder in bin sbin lib lib64; do
    ln -s "usr/$folder" "$root/$folder"
done
: >"$root/dev/null"
for package in $(needed); do
    dpkg -s "$package" 2>/dev/null && echo
    dpkg -L "$package" 2>/dev/null | while IFS= read -r file; do
        real=$(readlink -f "$(dirname "$file")")/$(basename "$file")
        { [ -f "$real" ] || [ -h "$real" ]; } && case $real in /usr/share/* | /etc/*) ;; *) cp -a --parents "$real" "$root" 2>/dev/null ;; esac
    done
done >"$root/var/lib/dpkg/status"
[ -e "$root/bin/sh" ] || ln -s dash "$root/usr/bin/sh"
[ -e "$root/bin/awk" ] || ln -s mawk "$root/usr/bin/awk"
cp "$fonts/H02.pfb" "$root/tmp/"

# The files of the root, but for what dpkg keeps of its own.
list() (
    cd "$root" && find . -path ./var/lib/dpkg -prune -o -print | sort
)
list >"$scratch/before"
if dpkg --root="$root" --force-script-chrootless -i "$deb" >"$scratch/log" 2>&1; then
    pass
else
    cat "$scratch/log"
    fail 'installing the package'
    finish
fi

place="chroot $root /usr/bin"
cp "$fonts/H02.pfb" /tmp/H02.pfb 2>/dev/null
try 1 t1check /tmp/H02.pfb
try 0 t1check --help
try 1 t1check-all -q /tmp/H02.pfb
try 0 t1draw A /tmp/H02.pfb
try 0 t1explain H02
rm -f /tmp/H02.pfb
for page in man1/t1check.1 man1/t1check-all.1 man1/t1draw.1 man1/t1explain.1 man7/t1check-rules.7; do
    if gzip -t "$root/usr/share/man/$page.gz"; then pass; else fail "the manual page $page"; fi
done
if dpkg --root="$root" --force-script-chrootless -P t1check >"$scratch/log" 2>&1 && list | cmp -s "$scratch/before" -; then
    pass
else
    cat "$scratch/log"
    list | diff "$scratch/before" -
    fail 'removing the package leaves something'
fi
finish
