# The module that the kit proves and compiles for x86-64, kept, to compile it a second time for another machine. Read after board/lib.sh.
# shellcheck shell=bash disable=SC2154
crate=abi_c
kept=$out/kept

# expected MACHINE: the kit is laid out as it was, and its clang compiles for the machine.
expected() {
    local each
    for each in bin/{rt,rtlib.py,rattle} toolchain/{lib,bin/clang,bin/ld.lld,bin/llvm-ar}; do
        [ -e "$kit/$each" ] || fail "the kit is not laid out as expected: there is no $each in $kit"
    done
    [[ $("$tools/bin/clang" --print-targets) == *" $1 "* ]] || fail "the kit's clang does not know $1"
}

# link_all FROM TO BUT...: links in TO to all that stands in FROM but what is named.
link_all() {
    local from=$1 to=$2 name but=()
    shift 2
    for name; do but+=(! -name "$name"); done
    mkdir -p "$to"
    find "$from" -mindepth 1 -maxdepth 1 "${but[@]}" -exec ln -s -t "$to" {} +
}

# A kit of links to the kit's own files, all but its clang. rt takes for the kit the folder that it stands in itself, so it is copied. All of it stands
# outside of the repository, in which `rt ci` refuses links.
linked_kit() {
    room=$(mktemp -d)
    trap 'rm -rf "$room"' EXIT
    home=$room/rattle
    link_all "$kit" "$home" bin toolchain
    link_all "$kit/bin" "$home/bin" rt rtlib.py __pycache__
    cp "$kit/bin/rt" "$kit/bin/rtlib.py" "$home/bin"
    link_all "$tools" "$home/toolchain" bin
    link_all "$tools/bin" "$home/toolchain/bin" clang
    ln -s "$tools/bin" "$home/toolchain/bin/kit"
    cp board/clang "$home/toolchain/bin/clang"
}

# Only a module of a build that ended well and called itself proved is let through. The verdicts before the last are of the crates below; one that
# rests on C functions says "axioms=" before its target, one with C functions of its own "foreign=".
proved() {
    local log=$out/proof.log
    (cd "crates/$crate" && "$home/bin/rt" lib) >"$log" 2>&1 || { cat "$log" >&2; fail "$crate is not proved"; }
    verdict=$(grep '^logic=' "$log" | tail -n 1) || fail "the kit gave no verdict: see $log"
    [[ $verdict =~ ^logic=proved\ functions=[1-9][0-9]*\ target=x86_64 && $verdict != *foreign=* ]] || fail "$crate is not proved: $verdict"
    [ -s "$home/toolchain/kept/module.bc" ] || fail "the kit proved $crate and handed no module to the clang in $home"
    rm -rf "$kept"
    mv "$home/toolchain/kept" "$kept"
}

# compile OBJECT TARGET FLAG...: as the kit was told to compile it, but for the machine. LLVM says of each function that it does not know the
# processor x86-64-v2, which the module names; anything else that it says is an error.
compile() {
    local object=$1 target=$2 words=() word
    shift 2
    while read -r word; do
        case $word in
            --target=*) words+=("--target=$target") ;;
            -march=*) words+=("$@" -Wno-override-module) ;;
            module.bc) words+=("$kept/module.bc") ;;
            module.o) words+=("$object") ;;
            -fPIC | --sysroot=*) ;;
            *) words+=("$word") ;;
        esac
    done <"$kept/words"
    "$tools/bin/clang" "${words[@]}" 2>"$out/clang.log" || { cat "$out/clang.log" >&2; fail "the module does not compile for $target"; }
    ! grep -v "^'x86-64-v2' is not a recognized processor for this target (ignoring processor)$" "$out/clang.log" >&2 || fail "clang says more than it should"
}
