# Sourced by .ci/run, desk/build, desk/run, oracle/differential, oracle/selftest and bench/run, from the repository's root: the
# library for C, and C programs over it.
#
# DESK_CC says how a C program is built. `cc`: by the machine's own compiler. `kit`: by the kit's clang and linker with the headers of
# desk/bare, which needs no package. Without it: cc where that is there, else kit.

kit=$(dirname "$(rt doc)")
toolchain=$kit/toolchain
archive=target/desk/libdesk.a
parts=(desk desk_runs desk_feed_runs)
archives=("$archive") # what a C program is linked with
strict=(-O2 -Wall -Wextra -pedantic -Werror -Iinclude)
if [ -n "${DESK_CC:-}" ]; then how=$DESK_CC; elif command -v cc >/dev/null; then how=cc; else how=kit; fi
case $how in cc | kit) ;; *) echo "desk: DESK_CC=$how: there are cc and kit" >&2; exit 2 ;; esac

# the archive of every door's exports, unless it is newer than everything that it is made of; one call at a time: whoever comes second
# finds it made
make_archive() {
    mkdir -p target/desk || return
    (
        if command -v flock >/dev/null; then flock 9; fi
        if is_newer "$archive"; then exit; fi
        if [ -t 2 ]; then echo 'desk: proving and building the library' >&2; fi
        for part in "${parts[@]}"; do
            tools/library "$part" >target/desk/library.log 2>&1 || { cat target/desk/library.log; echo "desk: the library $part failed"; exit 1; }
        done
        rm -f "$archive"
        { echo "create $archive"; for part in "${parts[@]}"; do echo "addlib crates/$part/out/lib$part.a"; done; echo save; echo end; } |
            "$toolchain/bin/llvm-ar" -M ||
            { echo 'desk: the parts were not joined'; exit 1; }
    ) 9>target/desk/lock
}

# whether a file is there and newer than every source of the crates, the kit, and the further files
is_newer() {
    [ -e "$1" ] && [ -z "$(find crates crates.txt "$kit/KIT-ID" "${@:2}" -name out -prune -o -type f -newer "$1" -print -quit)" ]
}

# desk/NAME.c to target/desk/NAME, with further flags as they are given
build_c() {
    mkdir -p "$(dirname "target/desk/$1")" || return
    rm -f "target/desk/$1"
    if [ "$how" = cc ]; then
        cc -std=c99 "${strict[@]}" "${@:2}" -o "target/desk/$1" "desk/$1.c" "${archives[@]}"
    else
        "$toolchain/bin/clang" --target=x86_64-unknown-linux-gnu -std=c99 "${strict[@]}" "${@:2}" -nostdinc -isystem desk/bare -fPIE \
            -c "desk/$1.c" -o "target/desk/$1.o" || return
        "$kit/bin/rattle-link" --target x86_64-unknown-linux-gnu --toolchain "$toolchain" -o "target/desk/$1" \
            "target/desk/$1.o" "${archives[@]}" 2>"target/desk/$1.link.log" ||
            { cat "target/desk/$1.link.log"; return 1; }
    fi
}

# target/desk/NAME
run_c() {
    if [ "$how" = cc ]; then "target/desk/$1"; else
        "$toolchain/lib/ld-linux-x86-64.so.2" --library-path "$toolchain/lib" "target/desk/$1"
    fi
}
