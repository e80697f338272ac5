#!/bin/sh
# Makes in web/out the modules of crates: of a program, as t1check.wasm, which node runs by web/wasi.mjs; and t1_web.wasm, of the exports of
# crates/t1_web, with t1check.html, one page that needs no other file.
#
#     web/build.sh [CRATE...]        those alone, of t1check, t1check_all, t1draw and t1_web
#
# A crate is proved and compiled for x86-64, t1_web as a static library. The LLVM module that rattle hands to the kit's clang is compiled for
# WebAssembly by the same clang. A memory of 64 bits is made one of 32 by wasm-opt (Debian: binaryen), which node and browsers without 64-bit memory
# need; where it isn't installed the modules keep 64 bits. The same sources, kit and binaryen give the same bytes.
set -u
LC_ALL=C
export LC_ALL

here=$(CDPATH='' cd -P -- "$(dirname "$0")" && pwd -P) || exit 3
top=$(dirname "$here")
web_exports='t1_web_lines t1_web_document t1_web_picture t1_web_entry web_room web_free'
out=$here/out

# shellcheck source=bin/build.sh
. "$top/bin/build.sh"

die() {
    printf 'web/build.sh: %s\n' "$*" >&2
    exit 3
}

command -v rt >/dev/null || die "'rt', the command of the Rattle kit, isn't on the path"
kit=$(dirname "$(dirname "$(readlink -f "$(command -v rt)")")")
clang=$kit/toolchain/bin/clang
scratch=$(mktemp -d) || exit 3
trap 'rm -rf "$scratch"' EXIT
trap 'exit 3' HUP INT TERM

# Runs a command, and shows what it says only where it fails.
quietly() {
    "$@" >"$scratch/log" 2>&1 </dev/null || {
        cat "$scratch/log" >&2
        die "this failed: $*"
    }
}

# Whether two files are the same; if not, the lines of the second that differ are shown.
same_words() {
    diff "$1" "$2" >"$scratch/differ" || {
        cat "$scratch/differ" >&2
        die "the kit hands clang other words than this script knows ('>' above), so it can't tell what they mean for WebAssembly"
    }
}

# ---- a crate, proved

# The libraries that a crate uses, and whether the repository has one.
uses() { sed -n "s/^$1\( [^:]*\)*: *//p" "$top/crates.txt"; }
is_ours() { grep -q "^$1[ :]" "$top/crates.txt"; }

# The gate proves the crate, and leaves a stamp of that.
is_crate_proved() {
    stamp=$top/crates/$crate/out/built
    [ -f "$stamp" ] || return 1
    newer=$(cd "$top" && find crates.txt crates/*/src crates/*/specs crates/*/proofs -newer "$stamp" 2>/dev/null | head -n 1)
    [ -z "$newer" ]
}

prove() (is_crate_proved || { cd "$top/crates/$crate" && rt check; })

is_program() { [ -f "$top/crates/$crate/src/main.rt" ]; }

# ---- what rattle hands to clang

# A toolchain whose clang keeps the module and the words that it is given, and makes an empty object: that for x86-64 isn't needed.
make_toolchain() {
    mkdir -p "$scratch/toolchain/bin"
    ln -s "$kit/toolchain/lib" "$scratch/toolchain/lib"
    for file in "$kit"/toolchain/bin/*; do
        [ "${file##*/}" = clang ] || ln -s "$file" "$scratch/toolchain/bin/"
    done
    cat >"$scratch/toolchain/bin/clang" <<END
#!/bin/sh
printf '%s\n' "\$@" >"$scratch/words"
cp module.bc "$scratch/module.bc" && : >module.o
END
    chmod +x "$scratch/toolchain/bin/clang"
}

# Where a library that the repository has is built, rt has put it there.
compile_for_x86() (
    cd "$top/crates/$crate" || exit 1
    if is_program; then set -- src/main.rt; else set -- src/lib.rt --crate-type staticlib; fi
    set -- "$@" --extern "std=$kit/rlibs/std.rlib" -L "dependency=$kit/rlibs"
    for library in $(uses "$crate"); do
        if is_ours "$library"; then
            set -- "$@" --extern "$library=$top/crates/$library/out/rlib/$library.rlib"
        else
            set -- "$@" --extern "$library=$kit/rlibs/$library.rlib"
        fi
    done
    for library in $(libraries_below "$crate"); do
        set -- "$@" -L "dependency=$top/crates/$library/out/rlib"
    done
    exec "$kit/bin/rattle" build --crate-name "$crate" "$@" --antt-project "$kit/rattle/logic/antt-project.json" \
        --logic-built "$kit/logic_built" --incremental out/incremental --cpu x86-64 --backend llvm \
        --toolchain "$scratch/toolchain" -o "$scratch/made"
)

# The words that are known, one a line. Those after `-mllvm` that name x86 are its own; the others hold for each processor. Of a program equal
# functions are one.
write_known_words() {
    cat <<END
--target=x86_64-unknown-linux-gnu
--sysroot=$scratch/toolchain
-march=x86-64
-mllvm
-no-trap-after-noreturn
-ffunction-sections
-fdata-sections
-mllvm
-trap-unreachable
-mllvm
-no-x86-call-frame-opt
-mllvm
-disable-machine-licm
-mllvm
-disable-postra-machine-licm
-mllvm
-sink-common-insts=false
--no-default-config
-no-canonical-prefixes
-fintegrated-cc1
-fno-crash-diagnostics
-Werror
-c
-x
ir
module.bc
-o
module.o
END
    if is_program; then
        printf '%s\n' -fPIE -O3 -Xclang -fmerge-functions -mllvm -mergefunc-use-aliases
    else
        printf '%s\n' -fPIC -O3
    fi
}

# ---- WebAssembly

# With 128-bit quotients written out, since no library has them.
compile_for_wasm() {
    "$clang" --target=wasm64-unknown-unknown --no-default-config -mcpu=lime1 -ffunction-sections -fdata-sections \
        -mllvm -expand-div-rem-bits=64 -mllvm -no-trap-after-noreturn -mllvm -trap-unreachable -mllvm -disable-machine-licm \
        -mllvm -disable-postra-machine-licm -mllvm -sink-common-insts=false -Werror -c "$@"
}

# The text of the module without what it says of x86-64: the layout, which differs only in address spaces that aren't used, and the
# processor. What only x86-64 has can't be there.
make_portable() {
    quietly "$clang" --target=x86_64-unknown-linux-gnu --no-default-config -S -emit-llvm -O0 -Xclang -disable-llvm-passes -x ir \
        "$scratch/module.bc" -o "$scratch/module.ll"
    if grep -nE 'llvm\.x86\.| asm |addrspace\(' "$scratch/module.ll" >&2; then
        die 'the lines above of the module are for x86-64 alone'
    fi
    sed -E 's/^target (datalayout|triple) = .*//; s/ "(target-cpu|target-features|probe-stack|stack-probe-size)"="[^"]*"//g' \
        "$scratch/module.ll" >"$scratch/portable.ll"
}

# Nothing is left undefined: a program imports what system.c names as imports, the module of the page nothing.
link() {
    if is_program; then
        set -- --export=_start "$parts/system.o"
    else
        set --
        for name in $web_exports; do
            set -- "$@" "--export=$name"
        done
    fi
    quietly "$kit/toolchain/bin/ld.lld" -flavor wasm -mwasm64 --no-entry "$@" --stack-first -z stack-size=1048576 --gc-sections \
        --strip-all -o "$scratch/module.wasm" "$scratch/module.o" "$parts/heap.o" "$parts/helpers.o"
}

# A table of functions, which a call through a pointer would make, is refused here.
lower_memory() {
    if command -v wasm-opt >/dev/null; then
        quietly wasm-opt --enable-memory64 --enable-bulk-memory --enable-sign-ext --enable-mutable-globals \
            --enable-nontrapping-float-to-int --memory64-lowering "$scratch/module.wasm" -o "$out/$crate.wasm"
    else
        echo "web/build.sh: without wasm-opt (Debian: binaryen) $crate.wasm needs node or a browser with 64-bit memory" >&2
        cp "$scratch/module.wasm" "$out/$crate.wasm"
    fi
}

# Makes the module of a crate, in a folder of its own.
make_module() (
    crate=$1
    parts=$scratch
    scratch=$scratch/$crate
    mkdir "$scratch" || exit 3
    make_toolchain
    quietly prove
    quietly compile_for_x86
    [ -f "$scratch/module.bc" ] || die "the kit hands clang no module.bc of $crate"
    write_known_words >"$scratch/known"
    same_words "$scratch/known" "$scratch/words"
    make_portable
    quietly compile_for_wasm -Wno-override-module -O3 -x ir "$scratch/portable.ll" -o "$scratch/module.o"
    link
    lower_memory
)

# ---- the page

# A line {{NAME}} of page.html means the text NAME.
make_page() {
    mkdir -p "$scratch/parts"
    gzip -9 -n -c "$out/t1_web.wasm" | base64 -w 0 >"$scratch/parts/t1_web"
    { sed 's/^export //' "$here/host.mjs" && cat "$here/worker.js"; } >"$scratch/parts/worker"
    { cat "$top/docs/RULES.md" && sed -n '/^## /,$p' "$top/docs/REFERENCE.md"; } |
        sed 's/](RULES\.md#/](#/g; s/](REFERENCE\.md#/](#/g' >"$scratch/parts/rules"
    base64 -w 0 "$top/tests/draw/fonts/letter.pfb" >"$scratch/parts/example"
    version=$(sed -n 's/^pub const VERSION: &str = "\(.*\)";$/\1/p' "$top/crates/t1_forms/src/version.rt")
    printf '<meta name="generator" content="t1check %s, of sources with the checksum %s">\n' "$version" "$(sources_sum)" >"$scratch/parts/made"
    awk -v parts="$scratch/parts/" '
        /^\{\{[a-z0-9_]+\}\}$/ {
            file = parts substr($0, 3, length($0) - 4)
            while ((getline line < file) > 0) print line
            close(file)
            next
        }
        { print }
    ' "$here/page.html" >"$out/t1check.html"
}

mkdir -p "$out" || exit 3
for part in heap helpers system; do
    quietly compile_for_wasm -O2 -ffreestanding -nostdinc "$here/$part.c" -o "$scratch/$part.o"
done
[ $# -gt 0 ] || set -- t1check t1check_all t1draw t1_web
made=''
for module; do
    make_module "$module" &
    made="$made $!"
done
for module in $made; do
    wait "$module" || exit 3
done
case " $* " in *' t1_web '*) make_page ;; esac
ls -l "$out"
