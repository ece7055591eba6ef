#!/bin/sh
# Times (user and system) of opc's emulator, of two plain C interpreters (beside this file, cc -O2) and of qemu-riscv32 where it is
# installed, on images of at least 300 million steps: interpreter.c looks up segments and rights as opc does, flat.c has one array
# and tests nothing. Also how many times as fast as each C interpreter opc is, and qemu-riscv32 as opc; the time to load an image
# with 400 MiB of segments; and that of an image of one instruction. Run at the top of the repository, after rt ci has built the
# compiler; OPC names another one. The programs are those of tests/images; it takes riscv64-unknown-elf-gcc.
set -eu
opc=${OPC:-crates/opc/out/opc}
here=$(dirname "$0")
work=$(mktemp -d)
trap 'rm -rf "$work"' EXIT
${CC:-cc} -O2 -o "$work/interpreter" "$here/interpreter.c"
${CC:-cc} -O2 -o "$work/flat" "$here/flat.c"

# a text of some 22 MB
awk 'BEGIN { for (k = 0; k < 450000; k++) printf "%d bottles of beer stand on wall %d %x\n", k, k % 97, k * 7919 }' >"$work/text.in"
for item in sort:40 hash:100 matrix:100 text:1; do
    name=${item%:*}
    tests/images/build "$name" "${item#*:}" "$work/$name"
    [ -f "$work/$name.in" ] || : >"$work/$name.in"
done

# user and system seconds of a command over an input: the least of three
seconds() {
    input=$1
    shift
    for turn in 1 2 3; do
        sh -c '"$@" >/dev/null 2>&1; times' sh "$@" <"$input" | awk 'NR == 2 { split($1, user, /[ms]/); split($2, kernel, /[ms]/); print (user[1] + kernel[1]) * 60 + user[2] + kernel[2] }'
    done | sort -n | head -n 1
}

printf '%-8s %10s %10s %10s %10s   %s\n' image opc segments flat qemu 'opc as fast as segments, as flat; qemu as opc'
for name in sort hash matrix text; do
    mine=$(seconds "$work/$name.in" "$opc" run "$work/$name")
    looked_up=$(seconds "$work/$name.in" "$work/interpreter" "$work/$name")
    flat=$(seconds "$work/$name.in" "$work/flat" "$work/$name")
    qemu=-
    if command -v qemu-riscv32 >/dev/null; then
        qemu=$(seconds "$work/$name.in" qemu-riscv32 "$work/$name")
    fi
    awk -v n="$name" -v a="$mine" -v b="$looked_up" -v f="$flat" -v q="$qemu" \
        'BEGIN { more = (q + 0 == 0) ? "-" : sprintf("%.0f", a / q)
                 printf "%-8s %8.2f s %8.2f s %8.2f s %8s s   %.2f, %.2f; %s times\n", n, a, b, f, q, b / a, f / a, more }'
done

# an image that ends at once and has a segment of 400 MiB less a page
printf '.globl _start\n_start: li a7, 93\nli a0, 0\necall\n.bss\n.skip 419426304\n' >"$work/large.s"
riscv64-unknown-elf-gcc -march=rv32im -mabi=ilp32 -nostdlib -static -Wl,--build-id=none -Wl,-T,tests/images/image.ld -o "$work/large" "$work/large.s"
awk -v t="$(seconds /dev/null "$opc" run "$work/large")" 'BEGIN { printf "an image of 400 MiB loads and ends in %.2f s\n", t }'

# an image of one instruction, which faults
printf '.globl _start\n_start: ebreak\n' >"$work/one.s"
riscv64-unknown-elf-gcc -march=rv32im -mabi=ilp32 -nostdlib -static -Wl,--build-id=none -Wl,-T,tests/images/image.ld -o "$work/one" "$work/one.s"
awk -v t="$(seconds /dev/null "$opc" run "$work/one")" 'BEGIN { printf "an image of one instruction takes %.3f s\n", t }'
