#!/usr/bin/env bash
# Builds the examples by each compiler that is installed, runs them, makes their records and checks these, and compares ends, codes
# and outputs; where qemu-riscv32 is installed, with its outputs and codes too. Then it causes each fault of the guide's table.
# Silent where all is right, but for a line on what is missing. Ends with 0 where nothing differs, else with 1.
# usage: guide/check.sh
if [ $# != 0 ]; then
    echo "usage: guide/check.sh"
    exit 2
fi
cd "$(dirname "$0")" || exit 1
tool=../crates/rv_tool/out/rv_tool
shipped=../crates/rv_tool/data
status=0

differs() {
    echo "guide: $1"
    status=1
}

# The step count depends on the compiler.
without_steps() {
    sed 's/ steps=[0-9]* shards=[0-9]*//; s/ steps=[0-9]*//; s/ bytes=[0-9]*//' <<<"$1"
}

runs() { # ELF INPUT OUTPUT CODE
    local line want
    line=$("$tool" run "$1" "$2" "$made/output" 8388608)
    want="ran end=0 code=$4 output=$(wc -c <"$3")"
    [ "$(without_steps "$line")" = "$want" ] || differs "run $1 $2: $line"
    cmp "$made/output" "$3" || status=1
}

runs_in_qemu() { # ELF INPUT OUTPUT CODE
    local code
    install -m 755 "$1" "$made/program"
    qemu-riscv32 "$made/program" <"$2" >"$made/output" 2>/dev/null
    code=$?
    [ "$code" = "$4" ] || differs "qemu-riscv32 $1 $2: $code"
    cmp "$made/output" "$3" || status=1
}

records() { # ELF INPUT OUTPUT CODE
    local workers line
    line=$("$tool" make "$1" "$2" "$made/record" 1 4096 8388608)
    [ "$(without_steps "$line")" = "made end=0 code=$4" ] || differs "make $1 $2: $line"
    for workers in 1 4; do
        line=$("$tool" check "$1" "$2" "$made/record" "$workers")
        [ "$(without_steps "$line")" = "accepted end=0 code=$4" ] || differs "check $1 $2 by $workers: $line"
    done
}

compares() { # FOLDER
    local name input output code
    while read -r name input output code; do
        [ -f "$1/$name.elf" ] || continue
        runs "$1/$name.elf" "$input" "$output" "$code"
        records "$1/$name.elf" "$input" "$output" "$code"
        if [ "$qemu" = yes ]; then
            runs_in_qemu "$1/$name.elf" "$input" "$output" "$code"
        fi
    done <<'END'
count examples/count.in examples/count.out 0
sha256 examples/sha256.in examples/sha256.out 0
ledger examples/ledger.in examples/ledger.out 0
ledger examples/count.in /dev/null 1
lines examples/ledger.in examples/lines.out 0
runtime tests/runtime.in tests/runtime.out 3
END
}

builds() { # COMPILER, and the commands that it needs
    local compiler=$1 command
    shift
    for command in "$@"; do
        if ! type "$command" >/dev/null 2>&1; then
            echo "guide: no $command, so the examples aren't built by $compiler"
            return
        fi
    done
    if [ "$compiler" = picolibc ] && ! riscv64-unknown-elf-gcc --specs=picolibc.specs -E - </dev/null >/dev/null 2>&1; then
        echo "guide: no picolibc, so the examples with a C library aren't built"
        return
    fi
    if [ "$compiler" = rust ] && ! ls "$(rustc --print target-libdir --target riscv32im-unknown-none-elf)"/libcore-* >/dev/null 2>&1; then
        echo "guide: no riscv32im-unknown-none-elf, so the example in Rust isn't built"
        return
    fi
    if ! make -s "$compiler"; then
        differs "make $compiler"
        return
    fi
    compares "out/$compiler"
}

if [ ! -x "$tool" ]; then
    echo "guide: no $tool"
    exit 1
fi
qemu=yes
type qemu-riscv32 >/dev/null 2>&1 || qemu=no
[ "$qemu" = yes ] || echo "guide: no qemu-riscv32 to compare with"
made=$(mktemp -d)
compares "$shipped"
builds gcc make riscv64-unknown-elf-gcc
builds picolibc make riscv64-unknown-elf-gcc
builds clang make clang ld.lld
builds rust make rustc
if type riscv64-unknown-elf-gcc >/dev/null 2>&1; then
    tests/faults.sh "$tool" || status=1
fi
rm -rf "$made"
exit "$status"
