#!/bin/sh
# Installs what the tests use beside the kit, on Debian as root: tests/packages.sh
# A test that lacks its package is skipped with a word, so whatever happens here is told, and the status is 0.
set -u
LC_ALL=C
export LC_ALL

# The page and its module; counts of instructions; manual pages; terminals and shells; recipes; packages; t1lint; the fonts that are measured.
packages='nodejs chromium binaryen valgrind man-db mandoc bsdutils zsh fish python3 jq
libxml2-utils python3-yaml pre-commit parallel mupdf-tools dpkg-dev lintian lcdf-typetools t1utils
fonts-urw-base35 lmodern cm-super-minimal texlive-lang-other texlive-lang-cyrillic texlive-fonts-recommended'
most_seconds=300

if [ "$(id -u)" -ne 0 ] || ! command -v apt-get >/dev/null; then
    echo 'tests/packages.sh: nothing is installed, since this is not root on Debian'
    exit 0
fi
missing=''
for package in $packages; do
    [ "$(dpkg-query -W -f '${db:Status-Status}' "$package" 2>/dev/null)" = installed ] || missing="$missing $package"
done
[ -n "$missing" ] || exit 0

log=$(mktemp) || exit 0
trap 'rm -f "$log"' EXIT
begun=$(date +%s)
# Runs apt-get in what is left of the time.
get() {
    left=$((most_seconds - $(date +%s) + begun))
    [ "$left" -gt 0 ] && DEBIAN_FRONTEND=noninteractive timeout -k 5 "$left" apt-get -q -y "$@" >>"$log" 2>&1 </dev/null
}

# All at once, or else one after another, so that one that can't be had keeps no other back.
get update
# shellcheck disable=SC2086
get install --no-install-recommends $missing ||
    for package in $missing; do
        get install --no-install-recommends "$package" || echo "tests/packages.sh: $package couldn't be installed"
    done
echo "tests/packages.sh: took $(($(date +%s) - begun)) seconds"
