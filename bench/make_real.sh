#!/bin/sh
# Makes a module of some 10 MB of compiled C: SQLite without floating point, which is refused, compiled eight times.
#
#     make_real.sh FILE
#
# It wants Debian's clang-14, llvm-14, lld-14, wasi-libc, tclsh, make and perl, and the source package sqlite3
# (`apt-get source`).
set -eu
out=$(realpath "$1")
room=$(mktemp -d)
trap 'rm -rf "$room"' EXIT
cd "$room"
apt-get source --download-only sqlite3 >&2
mkdir source
tar -xf sqlite3_*.orig.tar.xz -C source --strip-components=1
(cd source && ./configure --disable-tcl && make sqlite3.c) >&2
# The switch below leaves some literals with a point, in comparisons of numbers that are integers by then.
perl -pe 's/(?<![\w."])([0-9]+)\.([0-9]*)([eE][+-]?[0-9]+)?(?![\w."])/($1)/g if !/"/' source/sqlite3.c > sqlite3.c

compile() {
    clang-14 --target=wasm32-wasi -w -DSQLITE_OMIT_FLOATING_POINT -DSQLITE_OMIT_DATETIME_FUNCS -DSQLITE_OMIT_JSON \
        -DSQLITE_OMIT_WAL -DSQLITE_OMIT_LOAD_EXTENSION -DSQLITE_THREADSAFE=0 -DSQLITE_OS_OTHER=1 -DSQLITE_ENABLE_FTS4 \
        -DSQLITE_ENABLE_SESSION -DSQLITE_ENABLE_PREUPDATE_HOOK "$@" -c sqlite3.c
}

compile -O2 -DSQLITE_DEBUG -o first.o
llvm-nm-14 --defined-only --extern-only first.o | awk '{ print $3 }' | sort -u > names
for form in O0 O1 O2 O3 Os Oz "O2 -DSQLITE_DEBUG" "Os -DSQLITE_DEBUG"; do
    # Each time with other names, so that all can stand in one module.
    suffix=$(echo "$form" | tr -cd 'A-Za-z0-9')
    sed "s/.*/#define & &_$suffix/" names > names.h
    compile -$form -include names.h -o "part_$suffix.o"
done
wasm-ld-14 --no-entry --export-all --no-gc-sections --allow-undefined -o "$out" part_*.o
