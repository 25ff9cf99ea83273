#!/usr/bin/env bash
# Causes each row of the guide's table of faults by Debian's gcc, with picolibc and by clang where they are installed, and compares
# what the program, or the linker, says. Silent where all is right; ends with 0, else with 1.
# usage: guide/tests/faults.sh TOOL
if [ $# != 1 ]; then
    echo "usage: guide/tests/faults.sh TOOL"
    exit 2
fi
tool=$(realpath "$1")
cd "$(dirname "$0")/.." || exit 1
status=0
made=$(mktemp -d)
elf=$made/elf
empty=$made/empty
output=$made/output
: >"$empty"

gcc=riscv64-unknown-elf-gcc
machine=(-march=rv32im -mabi=ilp32)
plain=(-Os -ffreestanding -nostdlib -T runtime/program.ld runtime/start.S runtime/plain.c)
ours=(-nostartfiles -T runtime/program.ld runtime/start.S)

says() { # LINE, and the program's words. The count of steps depends on the compiler.
    local line
    line=$("$tool" "${@:2}" | sed 's/ steps=[0-9]*//')
    if [ "$line" != "$1" ]; then
        echo "guide: faults of $case: $line"
        status=1
        return 1
    fi
}

ends() { # LINE, and run2 for atomic operations
    says "$1" "${2:-run}" "$elf" "$empty" "$output" 100000
}

program() { # NAME LINE FLAGS: without a C library
    case=$1
    "$gcc" "${@:3}" "${plain[@]}" "tests/faults/$1.c" -o "$elf" -lgcc && ends "$2"
}

links() { # NAME LINE FLAGS: without a runtime
    case=$1
    "$gcc" -nostdlib "${@:3}" -o "$elf" 2>"$made/warnings" && ends "$2"
}

library() { # NAME LINE FLAGS: with picolibc
    case=$1
    "$gcc" --specs=picolibc.specs "${machine[@]}" -Os "${@:3}" runtime/libc.c "tests/faults/$1.c" -o "$elf" && ends "$2"
}

refused() { # TEXT, and a compiler's words
    if "${@:2}" -o "$elf" >"$made/warnings" 2>&1 || ! grep -q "$1" "$made/warnings"; then
        echo "guide: not refused for $1: ${*:2}"
        status=1
    fi
}

of_elf_files() {
    links bare.c 'fault elf 3 Class' tests/faults/bare.c
    links object 'fault elf 6 Kind' "${machine[@]}" -c tests/faults/bare.c
    links interpreter 'fault elf 10 Interpreter' "${machine[@]}" tests/faults/interpreter.S
    links overlap 'fault elf 15 Overlap' "${machine[@]}" -Wl,--no-check-sections,-Ttext=0x20000,-Tdata=0x20000,-e,main tests/faults/packed.c
    links entry 'fault elf 16 Entry' -march=rv32imc -mabi=ilp32 tests/faults/entry.S
    case=exchanged
    says 'fault elf 1 Short' run "$empty" "$elf" "$output" 100
    says 'fault elf 2 Magic' run examples/count.in "$elf" "$output" 100
}

of_ends() {
    links 'no _start' 'ran end=1 code=0 output=0' "${machine[@]}" tests/faults/bare.c
    program csr 'ran end=1 code=0 output=0' "${machine[@]}"
    program float 'ran end=1 code=0 output=0' -march=rv32imf -mabi=ilp32f
    program atomic 'ran end=1 code=0 output=0' -march=rv32ima -mabi=ilp32
    ends 'ran end=0 code=0 output=0' run2
    program trap 'ran end=2 code=0 output=0' "${machine[@]}"
    program bare 'ran end=3 code=0 output=0' -march=rv32imc -mabi=ilp32
    program jump 'ran end=3 code=0 output=0' "${machine[@]}"
    program load 'ran end=4 code=0 output=0' "${machine[@]}"
    program packed 'ran end=4 code=0 output=0' "${machine[@]}" -mno-strict-align -mtune=thead-c906
    program packed 'ran end=0 code=42 output=0' "${machine[@]}" -mstrict-align -mtune=thead-c906
    program store 'ran end=5 code=0 output=0' "${machine[@]}"
    program forever 'fault budget 100000' "${machine[@]}"
    program raw 'ran end=0 code=0 output=4' "${machine[@]}"
    refused __atomic_fetch_add_4 "$gcc" "${machine[@]}" "${plain[@]}" tests/faults/atomic.c -lgcc
}

of_files() {
    program bare 'ran end=0 code=42 output=0' "${machine[@]}"
    case=files
    says 'fault read' run "$made/absent" "$empty" "$output" 100
    says 'fault read' run "$elf" - "$output" 100
    says 'fault read' run "$elf" "$made" "$output" 100
    says 'fault write' run "$elf" "$empty" "$made/absent/output" 100
    truncate -s 16777217 "$made/long"
    says 'fault limit input' run "$elf" "$made/long" "$output" 100
    says 'fault words' run "$elf" "$empty" "$output" 8388609
}

of_streams() {
    program bare 'ran end=0 code=42 output=0' "${machine[@]}"
    case=streams
    : | says 'fault read' run "$elf" /dev/stdin "$output" 100 || status=1
    says 'ran end=0 code=42 output=0' run "$elf" /dev/stdin "$output" 100 <"$empty"
    program raw 'ran end=0 code=0 output=4' "${machine[@]}"
    "$tool" run "$elf" "$empty" /dev/stdout 100 >"$output"
    if ! grep -q '^ran ' "$output"; then
        echo "guide: the line isn't written over the output"
        status=1
    fi
}

of_libraries() {
    library hello 'fault budget 100000'
    library hello 'ran end=0 code=0 output=0' --crt0=hosted
    library hello 'ran end=0 code=0 output=15' "${ours[@]}"
    library unflushed 'ran end=0 code=0 output=0' "${ours[@]}"
    library asserts 'ran end=0 code=134 output=0' "${ours[@]}"
    library wide 'ran end=0 code=0 output=13' "${ours[@]}"
    library wide 'ran end=0 code=0 output=11' "${ours[@]}" -DPICOLIBC_INTEGER_PRINTF_SCANF
    refused 'undefined reference to `stdout' "$gcc" --specs=picolibc.specs "${machine[@]}" "${ours[@]}" tests/faults/hello.c
    refused 'multiple definition of `_start' "$gcc" --specs=picolibc.specs "${machine[@]}" "${ours[@]:1}" runtime/libc.c tests/faults/hello.c
}

of_elf_files
of_ends
of_files
if [ -e /dev/stdin ]; then
    of_streams
fi
if "$gcc" --specs=picolibc.specs -E - <"$empty" >"$output" 2>&1; then
    of_libraries
fi
if type clang ld.lld >"$output" 2>&1; then
    refused __udivdi3 clang --target=riscv32 -fuse-ld=lld "${machine[@]}" "${plain[@]}" tests/faults/divide.c
fi

rm -rf "$made"
exit "$status"
