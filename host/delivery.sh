# What hosts take from here: the header, the wrapper in Rust, and what make installs. Functions for
# example.sh; what they expect stands here.

strict=(-O2 -Wall -Wextra -Werror -pedantic)

# What the header and the wrapper say of the numbers 1 to 15.
texts() {
    cat <<'END'
1 the image's length is not that of a volume
2 sector 0 is no label
3 a directory is no list of files
4 a file's descriptor breaks a rule
5 a sector has two holders
6 the map is not that of the files
7 a name breaks its rule
8 there is no such file or directory
9 there is a file of that name already
10 the file is protected
11 there are 127 files already
12 too few sectors are free
13 the free sectors lie in too many pieces
14 the file is of another kind
15 a length, an offset or a status does not fit
END
}

sizes() {
    cat <<'END'
SECTOR_BYTES 256
NAME_BYTES 10
HEADER_BYTES 28
SECTORS_LEAST 3
SECTORS_MOST 1600
IMAGE_MOST 409600
FILES_MOST 127
LISTING_MOST 4466
PROGRAM_MOST 32768
LOADED_MOST 408832
WRITES_MOST 131
END
}

# COMMAND...: it must print what $work/expected has.
must_print() {
    "$@" >"$work/printed" 2>&1 || fail "status $?: $*"
    diff "$work/expected" "$work/printed" >&2 || fail "prints otherwise: $*"
    steps=$((steps + 1))
}

# Alone, and with a use of its function.
compile_header() {
    local source standard
    echo '#include "pnoelithe.h"' >"$work/unused.c"
    {
        cat "$work/unused.c"
        echo 'const char *text_of(uint32_t number);'
        echo 'const char *text_of(uint32_t number) { return pno_text(number); }'
    } >"$work/used.c"
    for source in "$work/unused.c" "$work/used.c"; do
        for standard in c99 c11; do
            "${compiler[@]}" -std=$standard "${strict[@]}" -I"$top/include" -c "$source" -o "$work/object"
            steps=$((steps + 1))
        done
    done
    echo "the header compiles as C99 and C11"
    if ! command -v g++ >/dev/null; then
        echo "the header is not compiled as C++: there is no g++"
        return
    fi
    for source in "$work/unused.c" "$work/used.c"; do
        g++ -std=c++11 "${strict[@]}" -I"$top/include" -x c++ -c "$source" -o "$work/object"
        steps=$((steps + 1))
    done
    echo "the header compiles as C++11"
}

show_header() {
    {
        cat <<'END'
#include "pnoelithe.h"
#include <stdio.h>
#define SHOW(word) printf("%s %d\n", #word, (int)PNO_##word)

int main(void) {
    for (uint32_t number = 0; number <= 20; number++)
        printf("%u %s\n", (unsigned)number, pno_text(number));
    printf("%u %s\n", (unsigned)UINT32_MAX, pno_text(UINT32_MAX));
    printf("version %s\n", PNO_VERSION);
    SHOW(KIND);
    SHOW(NOT_PROGRAM);
    SHOW(ARGUMENT);
    SHOW(SIZE);
    SHOW(MARKS);
    SHOW(DIRECTORIES);
    printf("changes %d\n", (int)sizeof(struct pno_changes));
END
        sizes | sed 's/ .*/);/; s/^/    SHOW(/'
        echo '    return 0;'
        echo '}'
    } >"$work/show.c"
    "${compiler[@]}" -std=c11 "${strict[@]}" -I"$top/include" "$work/show.c" -o "$work/show"
    {
        echo '0 done'
        texts
        printf '%s no number of this library\n' 16 17 18 19 20 4294967295
        echo 'version 0.6.0'
        printf '%s\n' 'KIND 14' 'NOT_PROGRAM 14' 'ARGUMENT 15' 'SIZE 15' 'MARKS 1' 'DIRECTORIES 2' 'changes 532'
        sizes
    } >"$work/expected"
    must_print "${emulator[@]}" "$work/show"
}

# The wrapper is copied beside a program, as hosts do. No call is made, so there is nothing to link.
show_wrapper() {
    local refusal refusals='Length Label Index Descriptor TwoHolders Map Name{place:0} NotFound Present
        Protected IndexFull DiskFull ChainFull Kind Argument'
    if ! command -v rustc >/dev/null; then
        echo "the header is not held to pnoelithe.rs: there is no rustc"
        return
    fi
    mkdir "$work/rust"
    cp "$host/src/pnoelithe.rs" "$work/rust"
    {
        echo '#[allow(dead_code)]'
        echo 'mod pnoelithe;'
        echo 'use pnoelithe::{Layout, Refusal, RenameRefusal, Which};'
        echo 'fn main() {'
        for refusal in $refusals; do
            echo "    println!(\"{} {}\", Refusal::$refusal.number(), Refusal::$refusal);"
        done
        sizes | sed 's/\(.*\) .*/    println!("\1 {}", pnoelithe::\1);/'
        cat <<'END'
    for which in [Some(Which::Old), Some(Which::New), None] {
        let renaming = RenameRefusal { refusal: Refusal::Name { place: 3 }, which };
        println!("{}; {:?}", renaming, Refusal::from(renaming));
    }
    println!("{:?}\n{:?}", Layout::OLD, Layout::MARKS);
    println!("{:?}\n{:?}", Layout::DIRECTORIES, Layout::MARKS_AND_DIRECTORIES);
    println!("{:?}", Layout::default());
}
END
    } >"$work/rust/show.rs"
    rustc --edition 2021 -D warnings "$work/rust/show.rs" -o "$work/rust/show"
    {
        texts
        sizes
        printf '%s breaks its rule; Name { place: 3 }\n' 'the old name' 'the new name' 'a name'
        printf 'Layout { marks: %s, directories: %s }\n' false false true false false true true true false false
    } >"$work/expected"
    must_print "$work/rust/show"
    echo "the header and pnoelithe.rs have the same texts and sizes"
}

# FOLDER: makes it, with a host that formats a volume of 40 sectors and stores a program, which has the
# backup mark then. Sectors 0 and 1, the descriptor and the program's sector are taken, so 36 are free.
write_own_host() {
    mkdir "$1"
    cat >"$1/host.c" <<'END'
#include <pnoelithe.h>
#include <stdio.h>

int main(void) {
    static uint8_t image[40 * PNO_SECTOR_BYTES], text[PNO_LISTING_MOST];
    const uint8_t disk[] = "OWN       ", name[] = "HELLO     ", bytes[] = {1, 2, 3, 4, 5};
    size_t length = 0, wrong = 0;
    struct pno_changes changes;
    uint32_t number = pno_format(image, sizeof image, 40, disk, PNO_NAME_BYTES, 9, 40, 1, 1, &wrong);
    if (number == PNO_DONE)
        number = pno_store(image, sizeof image, PNO_MARKS, 0, name, PNO_NAME_BYTES, bytes, sizeof bytes, &wrong,
                           &changes);
    if (number == PNO_DONE)
        number = pno_listing(image, sizeof image, PNO_MARKS, 0, text, sizeof text, &length);
    printf("%s: %s, %u sectors to write\n", PNO_VERSION, pno_text(number), (unsigned)changes.writes);
    fwrite(text, 1, length, stdout);
    return number != PNO_DONE;
}
END
    cat >"$work/expected" <<'END'
0.6.0: done, 4 sectors to write
OWN 40 36
HELLO PROGRAM 5 1 U M
END
}

# FOLDER: what make installs must lie there, and nothing else.
must_be_installed() {
    (cd "$1" && find . -type f | sort) >"$work/found"
    printf '%s\n' ./include/pnoelithe.h ./lib/libpnoelithe.a ./lib/pkgconfig/pnoelithe.pc >"$work/expected"
    must_be_same "$work/expected" "$work/found"
    must_be_same "$top/include/pnoelithe.h" "$1/include/pnoelithe.h"
    must_be_same "$archive" "$1/lib/libpnoelithe.a"
}

# Sets $installed to the prefix, or to nothing where there is no make.
install_library() {
    local make=(make -s -C "$top" ARCHIVE="$archive") staged=$work/staged/opt/pnoelithe
    installed=
    if ! command -v make >/dev/null; then
        echo "make install is not tried: there is no make"
        return
    fi
    installed=$work/installed
    "${make[@]}" install PREFIX=/opt/pnoelithe DESTDIR="$work/staged"
    must_be_installed "$staged"
    echo 'prefix=/opt/pnoelithe' >"$work/expected"
    must_print grep '^prefix' "$staged/lib/pkgconfig/pnoelithe.pc"
    "${make[@]}" uninstall PREFIX=/opt/pnoelithe DESTDIR="$work/staged"
    [ -z "$(find "$work/staged" -type f)" ] || fail "make uninstall has left a file"
    "${make[@]}" install DESTDIR="$work/staged" LIBDIR=/usr/lib64 INCLUDEDIR=/usr/local/include/ti
    printf '%s\n' prefix=/usr/local 'includedir=${prefix}/include/ti' libdir=/usr/lib64 >"$work/expected"
    must_print grep = "$work/staged/usr/lib64/pkgconfig/pnoelithe.pc"
    "${make[@]}" install PREFIX="$installed"
    must_be_installed "$installed"
    echo "make installs header, archive and pnoelithe.pc"
}

# A kit that only counts how often it is called: the archive is built where it is missing, or older
# than a .rt file or crates.txt.
build_by_make() {
    local kit=$work/kit make
    [ -n "$installed" ] || return 0
    mkdir -p "$kit/bin" "$kit/crates/one/src" "$kit/crates/pnoelithe/out"
    cp -r "$top/Makefile" "$top/include" "$kit"
    touch "$kit/calls"
    cat >"$kit/bin/rt" <<'END'
#!/bin/sh
[ "$*" = lib ] && [ "${PWD##*/}" = pnoelithe ] || exit 1
echo call >>../../calls
echo built >out/libpnoelithe.a
END
    chmod +x "$kit/bin/rt"
    touch -d '3 hours ago' "$kit/crates.txt" "$kit/crates/one/src/lib.rt"
    make=(env PATH="$kit/bin:$PATH" make -s -C "$kit" RATTLE_HOME=)
    "${make[@]}"
    must_be_built 1
    "${make[@]}"
    touch "$kit/crates/one/src/lib.antt" "$kit/include/pnoelithe.h"
    "${make[@]}"
    must_be_built 1
    touch -d '2 hours ago' "$kit/target/staticlib/libpnoelithe.a"
    touch -d '1 hour ago' "$kit/crates/one/src/lib.rt"
    "${make[@]}"
    must_be_built 2
    touch -d '1 hour ago' "$kit/crates.txt"
    touch -d '2 hours ago' "$kit/target/staticlib/libpnoelithe.a" "$kit/crates/one/src/lib.rt"
    "${make[@]}"
    must_be_built 3
    rm -r "$kit/target"
    if "${make[@]}" RT=no-kit 2>"$work/printed"; then
        fail "make ends well without the kit"
    fi
    grep -q 'there is no command no-kit: the Rattle kit' "$work/printed" ||
        fail "make does not say that the kit is missing"
    steps=$((steps + 1))
}

# TIMES: make has called the kit so often.
must_be_built() {
    [ "$(wc -l <"$work/kit/calls")" -eq "$1" ] || fail "make does not build when it should, or builds again"
    steps=$((steps + 1))
}

host_by_pkg_config() {
    local own=$work/own-by-pkg-config flags
    [ -n "$installed" ] || return 0
    if ! command -v pkg-config >/dev/null; then
        echo "no host is built by pkg-config: it is not here"
        return
    fi
    export PKG_CONFIG_PATH=$installed/lib/pkgconfig
    write_own_host "$own"
    read -r -a flags < <(pkg-config --cflags --libs pnoelithe)
    "${compiler[@]}" "${strict[@]}" "$own/host.c" "${flags[@]}" -o "$own/host"
    must_print "${emulator[@]}" "$own/host"
    echo 0.6.0 >"$work/expected"
    must_print pkg-config --modversion pnoelithe
    echo "a host is built by pkg-config"
}

# The lines that the documentation shows must be those of cmake/CMakeLists.txt.
host_by_cmake() {
    local own=$work/own-by-cmake
    awk '/^```/ { inside = $0 == "```cmake"; next } inside' "$host/README.md" >"$work/shown"
    [ ! -s "$work/shown" ] || must_be_same "$host/cmake/CMakeLists.txt" "$work/shown"
    [ -n "$installed" ] || return 0
    if ! command -v cmake >/dev/null || ! command -v pkg-config >/dev/null; then
        echo "no host is built by CMake: it is not here, or pkg-config is not"
        return
    fi
    write_own_host "$own"
    cp "$host/cmake/CMakeLists.txt" "$own"
    cmake -S "$own" -B "$own/build" -DCMAKE_C_COMPILER="${compiler[0]}" \
        -DCMAKE_EXE_LINKER_FLAGS="${compiler[*]:1}" >"$work/cmake.log" &&
        cmake --build "$own/build" >>"$work/cmake.log" || fail "CMake: see $work/cmake.log"
    must_print "${emulator[@]}" "$own/build/host"
    echo "a host is built by CMake"
}

# With an empty vector, as the header shows it: a program of no byte takes a sector all the same.
host_in_cpp() {
    local cpp=${compiler[0]/gcc/g++}
    if ! command -v "$cpp" >/dev/null; then
        echo "no host in C++ is built: there is no $cpp"
        return
    fi
    cat >"$work/host.cpp" <<'END'
#include "pnoelithe.h"
#include <cstdio>
#include <vector>

int main() {
    std::vector<uint8_t> volume(40 * PNO_SECTOR_BYTES), text(PNO_LISTING_MOST), v;
    const uint8_t name[] = "EMPTY     ", none = 0, *bytes = v.empty() ? &none : v.data();
    const uint32_t layout = 0;
    const size_t directory = 0;
    uint8_t *image = volume.data();
    size_t image_len = volume.size(), name_len = PNO_NAME_BYTES, length = 0, wrong = 0;
    pno_changes changes;
    uint32_t number = pno_format(image, image_len, 40, name, name_len, 9, 40, 1, 1, &wrong);
    if (number == PNO_DONE)
        number = pno_store(image, image_len, layout, directory, name, name_len, bytes, v.size(), &wrong, &changes);
    if (number == PNO_DONE)
        number = pno_listing(image, image_len, layout, directory, text.data(), text.size(), &length);
    std::printf("%s\n", pno_text(number));
    std::fwrite(text.data(), 1, length, stdout);
}
END
    printf '%s\n' 'done' 'EMPTY 40 37' 'EMPTY PROGRAM 0 0 U' >"$work/expected"
    "$cpp" "${compiler[@]:1}" -std=c++11 "${strict[@]}" -I"$top/include" "$work/host.cpp" \
        "$archive" -o "$work/host-in-cpp"
    must_print "${emulator[@]}" "$work/host-in-cpp"
    echo "a host in C++ is built"
}
