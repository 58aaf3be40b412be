# The two compilers and the link, as box/firmware and box/peer share them; a bash script sources it.
box=$(cd "$(dirname "${BASH_SOURCE[0]}")" && pwd)
kit=$(dirname "$(dirname "$(readlink -f "$(command -v rt)")")")
parts=$(mktemp -d)
trap 'rm -rf "$parts"' EXIT
sections='-ffunction-sections -fdata-sections'
c='-std=gnu11 -Wall -Wextra -Werror'

gcc() { arm-none-eabi-gcc -mcpu=cortex-m0 -mthumb "$@"; }

# C, whose loops become no calls of a C library.
gcc_c() { gcc -ffreestanding $sections $c -fno-tree-loop-distribute-patterns -c "$@"; }

# As the toolchain calls its clang, but for the processor and the level.
clang() {
    "$kit/toolchain/bin/clang" --target=thumbv6m-none-eabi -mcpu=cortex-m0 \
        -mfloat-abi=soft -ffreestanding $sections --no-default-config -Werror -c "$@"
}

# C, with gcc's headers, since the toolchain has none, and with enums as small as gcc's.
clang_c() { clang $c -isystem "$(gcc -print-file-name=include)" -fshort-enums "$@"; }

# link ELF RAM: what was compiled into $parts, with box/start.c, box/memory.c and gcc's library, for
# a machine with RAM bytes. There is no C library: what none of these has stays unresolved, and the
# link fails.
link() {
    local part
    for part in start memory; do gcc_c -Os "$box/$part.c" -o "$parts/$part.o"; done
    gcc -nostdlib -Wl,--gc-sections -Wl,--fatal-warnings -Wl,-z,noexecstack \
        -Wl,--defsym=ram_end=$((0x20000000 + $2)) -T "$box/box.ld" "$parts"/*.o -lgcc -o "$1"
}
