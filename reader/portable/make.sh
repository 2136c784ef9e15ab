#!/bin/sh
# Makes the library as C for any compiler, from the module of the page: wasm2c (Debian: wabt) writes that module as C, and
# glue.c has the calls of ats_reader.h over it. Then it builds the caller check.c with it, here, and for arm64 if there is
# a compiler. reader/play.py plays the vectors with both. README.md says what is trusted.
# usage: make.sh [MODULE [FOLDER]]    the module is web/out/page.wasm if it is not given. For a FOLDER it builds nothing
set -eu
here=$(dirname -- "$(readlink -f -- "$0")")
module=${1:-$here/../../web/out/page.wasm}
runtime=/usr/share/wabt/wasm2c
out=${2:-$here/out}

[ -e "$module" ] || { echo "make.sh: there is no $module: web/make.sh makes it" >&2; exit 1; }
command -v wasm2c >/dev/null || { echo 'make.sh: there is no wasm2c: install wabt' >&2; exit 1; }
rm -rf "$out" && mkdir -p "$out"
wasm2c -n ats "$module" -o "$out/ats.c"
# Without calls through tables nothing has to be set up before the first call, so nothing is shared by threads.
if grep -q '^ .*CALL_INDIRECT(' "$out/ats.c"; then
    echo 'make.sh: the module has calls through tables' >&2
    exit 1
fi
cp "$here/glue.c" "$here/../ats_reader.h" "$runtime"/wasm-rt-impl.[ch] /usr/include/wasm-rt.h "$out"
# For `cc @flags -c *.c`. Accesses to memory are tested by comparing, not by a handler of signals. A trap, which no proved
# code comes to, aborts.
printf '%s\n' -std=gnu11 -O2 -DNDEBUG -DWASM_RT_MEMCHECK_SIGNAL_HANDLER=0 -DWASM_RT_USE_STACK_DEPTH_COUNT=0 \
    '"-DWASM_RT_TRAP_HANDLER(code)=abort()"' >"$out/flags"
[ $# -lt 2 ] || exit 0

build() {
    cc=$1 name=$2
    for file in ats glue wasm-rt-impl; do
        "$cc" "@$out/flags" -I "$out" -c "$out/$file.c" -o "$out/$file.o"
    done
    "$cc" -std=c11 -O2 -Wall -Wextra -Werror -I "$out" -o "$out/$name" "$here/../check.c" "$out"/*.o -lm
}

build "${CC:-gcc}" check
ar rcs "$out/libats_reader.a" "$out"/*.o
command -v aarch64-linux-gnu-gcc >/dev/null && build aarch64-linux-gnu-gcc check-arm64
rm -f "$out"/*.o
ls -l "$out"
