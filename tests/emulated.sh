#!/usr/bin/env bash
# SPDX-License-Identifier: MIT
# What tests/aarch64 and tests/riscv64 are: it builds the C library for Linux on another processor, and runs the programs of
# capi/ over it under QEMU.
#
#   tests/emulated.sh TARGET [LIBRARY]    TARGET is aarch64 or riscv64. LIBRARY is libnvme_capi.a for it; by default it is
#                                         built first. UNPROVED=1 in the environment says that it isn't proved, as one for
#                                         riscv64 never is
#
# It needs TARGET-linux-gnu-gcc with its C library, and qemu-TARGET or qemu-TARGET-static, which it installs as needs.py does.
# Without them it tests nothing, and says so.
set -u
target=$1
shift
# Only for AArch64 there is a proved library.
[ "$target" = aarch64 ] || UNPROVED=1
top=$(cd "$(dirname "${BASH_SOURCE[0]}")/.." && pwd)
tools=$target-linux-gnu-
counts='^([0-9]+) passed, ([0-9]+) failed$'
passed=0 failed=0
# A program that takes longer, in seconds, counts as hung.
longest=600

debian=${target/aarch64/arm64}
needs=("${tools}gcc=gcc-$target-linux-gnu" "/usr/$target-linux-gnu/lib/libc.a=libc6-dev-$debian-cross")
command -v "qemu-$target" > /dev/null || needs+=("qemu-$target-static=qemu-user-static")
"$top/tests/needs.py" "tests/$target" "${needs[@]}" || { echo "0 passed, 0 failed" && exit; }
emulator=$(command -v "qemu-$target" || command -v "qemu-$target-static")
folder=$(mktemp -d)
trap 'rm -rf "$folder"' EXIT

give_up() {
    echo "tests/$target: $1" >&2
    echo "0 passed, 1 failed"
    exit 1
}

# runs NAME SOURCE ..: builds a program of it and of other sources, runs it, and adds what its last line counts.
runs() {
    local last=""
    if ${tools}gcc ${UNPROVED:+-DUNPROVED -DNVMEARB_ALLOW_UNPROVED} -std=c11 -O1 -Wall -Wextra -Werror -static -I"$top/capi" "$top/capi/$1" "${@:2}" "$folder/libnvmearb.a" -o "$folder/program"; then
        last=$(timeout "$longest" "$emulator" "$folder/program" | tail -1)
    fi
    if [[ $last =~ $counts ]]; then
        passed=$((passed + BASH_REMATCH[1])) failed=$((failed + BASH_REMATCH[2]))
    else
        failed=$((failed + 1)) last="did not build or end"
    fi
    echo "$1: $last"
}

make -s -C "$top/capi" TARGET="$target" UNPROVED="${UNPROVED:-}" ${1:+LIBRARY="$(realpath "$1")"} OUT="$folder" "$folder/libnvmearb.a" >&2 ||
    give_up "the library did not build"
for name in tests/{entries,arbiter,board,table,ctrl,turns,batches,room,full_forever,one_queue_stops_all,stuck,anywhere,verify,stale_tag,hostile,garbage}.c examples/{loop,device}.c; do
    runs "$name"
done
over_memory=({nvme,registers,prp,io,admin,pages,saving,memory,trace}.c)
for name in tests/{guest_hang,hang,enabling,messages}.c; do
    runs "$name" "${over_memory[@]/#/$top/capi/examples/}"
done
echo "$passed passed, $failed failed"
[ "$failed" = 0 ]
