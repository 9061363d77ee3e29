# What the scripts share. They stand at the top of the repository when they read this, with `out` as the folder that they write to.
# shellcheck shell=bash disable=SC2034,SC2154

fail() {
    echo "$0: $*" >&2
    exit 1
}

# need COMMAND PACKAGE...: installs Debian packages where the command is missing.
need() {
    local command=$1
    shift
    command -v "$command" >/dev/null && return
    [ "$(id -u)" = 0 ] || fail "$command is missing: install Debian's $*"
    { apt-get install -y "$@" || { apt-get update && apt-get install -y "$@"; }; } >&2 || fail "$command is missing, and Debian's $* cannot be installed"
}

# quietly LOG COMMAND...: what it says is shown where it fails.
quietly() {
    local log=$out/$1
    shift
    "$@" >"$log" 2>&1 || { cat "$log" >&2; fail "failed: $*"; }
}

# from_kit FILE MADE COMMAND...: prints FILE, a copy of what COMMAND makes in a crate's folder, MADE. It is made anew where a file of the crates is newer.
# The copy is for the scripts: `rt ci` clears what stands in a crate's out/.
from_kit() {
    local file=$1 made=$2 out=$PWD/target/log log=${1##*/}.log
    shift 2
    if [ ! -e "$file" ] || [ -n "$(find crates.txt crates -name out -prune -o -type f -newer "$file" -print -quit)" ]; then
        command -v rt >/dev/null || fail "$file is missing or older than the crates, and the Rattle kit (rt) that builds it is not here"
        echo "${file##*/} is proved and built, which can take some minutes" >&2
        mkdir -p "$out" "${file%/*}"
        touch "$out/$log.began"
        quietly "$log" env -C "${made%/out/*}" "$@" </dev/null
        cp "$made" "$file"
        touch -r "$out/$log.began" "$file"
    fi
    echo "$file"
}

# part NAME COMMAND...: runs one part of a test. A tool that counts says so on its last line ("... N passed, M failed"); any other part is one test.
passed=0 failed=0
part() {
    local name=$1 log=$out/part.log status good=0 bad=0 begin=$SECONDS
    shift
    echo "== $name"
    set +e
    (set -e && "$@") 2>&1 | tee "$log"
    status=${PIPESTATUS[0]}
    set -e
    if [[ $(tail -n 1 "$log") =~ ([0-9]+)\ passed,\ ([0-9]+)\ failed$ ]]; then
        good=${BASH_REMATCH[1]} bad=${BASH_REMATCH[2]}
    elif [ "$status" = 0 ]; then
        good=1
    fi
    # A tool that ends badly has failed, whatever it counted.
    if [ "$status" != 0 ] && [ "$bad" = 0 ]; then bad=1; fi
    passed=$((passed + good)) failed=$((failed + bad))
    echo "-- $name: $good passed, $bad failed, $((SECONDS - begin)) s"
}

# The kit runs on x86-64 and on Arm. What it builds is for x86-64 on both, so on Arm C for it wants a cross compiler.
machine=$(uname -m)
need_x86_64_gcc() {
    if [ "$machine" = x86_64 ]; then
        need x86_64-linux-gnu-gcc gcc libc6-dev
        need x86_64-linux-gnu-objdump binutils
    else
        need x86_64-linux-gnu-gcc gcc-x86-64-linux-gnu libc6-dev-amd64-cross
    fi
}
