# For the scripts beside it, which source it: where a program is proved and built over the libraries below t1check.

# Copies these libraries and what their out folders keep of earlier proofs: TOP FOLDER
copy_crates() {
    mkdir -p "$2/crates"
    for crate in t1_io t1_seal t1_scan t1_font t1_char t1_rules t1_report; do
        cp -Rp "$1/crates/$crate" "$2/crates/"
        grep "^$crate:" "$1/crates.txt" >>"$2/crates.txt"
    done
}
