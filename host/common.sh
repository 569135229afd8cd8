# What the scripts of this folder share. $host is this folder.
top=$(dirname "$host")
out=$top/target/host
mkdir -p "$out"

install() {
    apt-get update >&2
    apt-get install -y "$@" >&2
}

# PROGRAM PACKAGE...: installs the packages where the program is missing.
need() {
    command -v "$1" >/dev/null || install "${@:2}"
}

# The archive is for x86-64. Elsewhere the programs are built for it too, and emulated.
prepare() {
    if [ "$(uname -m)" = x86_64 ]; then
        need rustc rustc
        rustc=rustc
        objdump=objdump
        flags=()
        emulator=()
        return
    fi
    if ! dpkg -s libstd-rust-dev:amd64 >/dev/null 2>&1; then
        dpkg --add-architecture amd64
        install rustc libstd-rust-dev:amd64
    fi
    need x86_64-linux-gnu-gcc gcc-x86-64-linux-gnu libc6-dev-amd64-cross
    need qemu-x86_64 qemu-user
    # Debian's compiler, whichever one comes first in the path: it has the library for x86-64.
    rustc=$(dpkg -L rustc | grep 'bin/rustc$')
    objdump=x86_64-linux-gnu-objdump
    flags=(--target x86_64-unknown-linux-gnu -C relocation-model=static
        -C linker=x86_64-linux-gnu-gcc)
    emulator=(qemu-x86_64)
}

# Sets $compiler and $emulator: the archive is for x86-64.
prepare_c() {
    if [ "$(uname -m)" = x86_64 ]; then
        need gcc gcc
        compiler=(gcc)
        emulator=()
    else
        need x86_64-linux-gnu-gcc gcc-x86-64-linux-gnu libc6-dev-amd64-cross
        need qemu-x86_64 qemu-user
        compiler=(x86_64-linux-gnu-gcc -static)
        emulator=(qemu-x86_64)
    fi
}

# Compiles the example host.
compile_example() {
    "${compiler[@]}" -std=c11 -O2 -Wall -Wextra -Werror -pedantic -I"$top/include" \
        "$host/example.c" "$archive" -o "$out/example"
}

# Sets $archive, made anew where a source is younger: that takes a proof.
find_archive() {
    if [ -n "${PNO_ARCHIVE:-}" ]; then
        archive=$(realpath "$PNO_ARCHIVE")
        return
    fi
    archive=$top/target/staticlib/libpnoelithe.a
    if [ ! -f "$archive" ] ||
        [ -n "$(find "$top/crates" -name '*.rt' -newer "$archive" 2>/dev/null)" ]; then
        make -s -C "$top" target/staticlib/libpnoelithe.a >&2
    fi
}

# IMAGE OFFSET ESCAPES: puts bytes there.
put_at() {
    printf '%b' "$3" | dd of="$1" bs=1 seek="$2" conv=notrunc status=none
}

# IMAGE: puts two directories on case M's volume by hand, as no call does: GAMES is the first entry, with its
# index in sector 4, and TEXTS the third, with its index in sector 6; both are empty.
put_directories() {
    put_at "$1" 20 'GAMES     \x00\x04'
    put_at "$1" 44 'TEXTS     \x00\x06'
    put_at "$1" 56 '\x5f'
    dd if=/dev/zero of="$1" bs=256 seek=4 count=1 conv=notrunc status=none
    dd if=/dev/zero of="$1" bs=256 seek=6 count=1 conv=notrunc status=none
}
