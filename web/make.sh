#!/bin/bash
# Makes the page in web/out: proves crates/ats_reader by ./prove, compiles what was proved for browsers, lowers it to 32-bit
# memory, and pins every file of the page by its SHA-256. README.md says what of this is proved, and what is trusted.
# make.sh [--name NAME] [--root ROOT] [HOST..]    NAME and ROOT are of the archive that the page is for: then it asks nobody
# for a root. It may ask the HOSTs, such as https://archive.example.org, beside the one that it comes from.
set -eu
here=$(dirname "$(readlink -f "$0")")
top=$(dirname "$here")
kit=$(dirname "$(rt doc)")
clang=$kit/toolchain/bin/clang
work=$(mktemp -d)
trap 'rm -rf "$work"' EXIT

# All that the module may call: the heap, and what clang itself makes on every processor.
calls='rattle_(alloc|realloc|dealloc)|llvm\.(memset|memmove|memcpy|cttz|ctlz|ctpop|bswap|trap)(\..*)?'
exports='ats_check ats_both ats_catalog ats_catalog_root ats_text ats_growth ats_query ats_line page_room page_give'
# LLVM's own description of memory in wasm64; pointers and whole numbers have the sizes of x86-64.
layout='e-m:e-p:64:64-p10:8:8-p20:8:8-i64:64-i128:128-n32:64-S128-ni:1:10:20'
wasm='--target=wasm64-unknown-unknown -mcpu=lime1 -ffunction-sections -fdata-sections --no-default-config -fintegrated-cc1 -Werror'

# A copy of the kit's toolchain, in which clang also keeps the module of LLVM that it is given.
keeping_toolchain() {
    mkdir -p "$work/toolchain/bin"
    ln -s "$kit/toolchain/lib" "$work/toolchain/lib"
    for tool in ld.lld llvm-ar rattle-x64; do ln -s "$kit/toolchain/bin/$tool" "$work/toolchain/bin/$tool"; done
    printf '#!/bin/sh\ncp module.bc "%s/module.bc"\nexec "%s" "$@"\n' "$work" "$clang" >"$work/toolchain/bin/clang"
    chmod +x "$work/toolchain/bin/clang"
}

libraries() {
    local name
    for name in $(sed -n 's/^ats_reader staticlib: *//p' "$top/crates.txt") std; do
        if [ -d "$top/crates/$name" ]; then
            echo --extern "$name=$top/crates/$name/out/rlib/$name.rlib"
        else
            echo --extern "$name=$kit/rlibs/$name.rlib"
        fi
    done
    echo -L "dependency=$kit/rlibs"
    for name in "$top"/crates/*/out/rlib; do echo -L "dependency=$name"; done
}

# The kit lowers the proved crate for x86-64, as for the library of reader/. It cannot for wasm64: there it refuses
# the calls of the heap.
lower() {
    keeping_toolchain
    # shellcheck disable=SC2046
    (cd "$top/crates/ats_reader" && "$kit/bin/rattle" build --crate-name ats_reader src/lib.rt $(libraries) \
        --antt-project "$kit/rattle/logic/antt-project.json" --logic-built "$kit/logic_built" --incremental out/incremental \
        --links ats_reader= --crate-type staticlib --cpu x86-64 --toolchain "$work/toolchain" -o "$work/library.a") \
        >"$work/build.log" 2>&1 || { cat "$work/build.log" >&2; return 1; }
    "$clang" --target=x86_64-unknown-linux-gnu -S -emit-llvm -Xclang -disable-llvm-passes -x ir "$work/module.bc" -o "$work/page.ll"
}

only_known_calls() {
    if grep -o '^declare [^(]*@[^(]*' "$work/page.ll" | sed 's/.*@//' | grep -v -x -E "$calls"; then
        echo 'make.sh: the module calls these, which the page does not have' >&2
        return 1
    fi
}

compile() {
    sed -i -e "s/^target datalayout = .*/target datalayout = \"$layout\"/" \
        -e 's/^target triple = .*/target triple = "wasm64-unknown-unknown"/' \
        -e 's/ "probe-stack"="inline-asm" "stack-probe-size"="[0-9]*"//' -e 's/ "target-cpu"="x86-64"//' "$work/page.ll"
    # shellcheck disable=SC2086
    "$clang" $wasm -O3 -mllvm -expand-div-rem-bits=64 -c -x ir "$work/page.ll" -o "$work/page.o"
    # shellcheck disable=SC2086
    "$clang" $wasm -O2 -Wall -Wextra -ffreestanding -nostdinc -mbulk-memory -c "$here/heap.c" -o "$work/heap.o"
    # The last page of 4 GiB stays free, so that an address below 0 is outside the memory in the lowered module, too.
    # shellcheck disable=SC2046
    "$kit/toolchain/bin/ld.lld" -flavor wasm -mwasm64 --no-entry --stack-first -z stack-size=1048576 \
        --max-memory=4294901760 --gc-sections --strip-all --fatal-warnings --threads=1 $(printf -- ' --export=%s' $exports) \
        -o "$work/page.wasm" "$work/heap.o" "$work/page.o"
}

# Lowers the module to 32-bit memory, which every browser has.
shorten() {
    if ! command -v wasm-opt >/dev/null; then
        echo 'make.sh: there is no wasm-opt (Debian: binaryen), so the page will want a browser with 64-bit memory' >&2
        return
    fi
    wasm-opt --enable-memory64 --enable-bulk-memory --enable-sign-ext --enable-mutable-globals \
        --enable-nontrapping-float-to-int --memory64-lowering "$work/page.wasm" -o "$work/page32.wasm"
    mv "$work/page32.wasm" "$work/page.wasm"
}

"$top/prove" ats_reader
echo 'make.sh: compiling it for browsers' >&2
lower
only_known_calls
compile
shorten
python3 "$here/pin.py" "$work/page.wasm" "$here/out" "$@"
