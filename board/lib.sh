# What the scripts of board/ share. They stand at the top of the repository when they read this.
# shellcheck shell=bash disable=SC2034
. tests/lib.sh
out=$PWD/target/board
firmware=$out/libroadbellow.a
linux=$out/libroadbellow-linux.a

command -v rt >/dev/null || fail "the Rattle kit (rt) is not here"
kit=$(dirname "$(dirname "$(readlink -f "$(command -v rt)")")")
tools=$kit/toolchain
