#!/usr/bin/env bash
# Compiles the example host and runs it on an image on disk, step by step: case M's volume, which
# document 01 makes and lists. What each step must print, and where its bytes must lie, stands here
# as the paper has it. Then it is kept from writing in every way that can be had here, and stopped
# between any two of its writes. Before that the header, the wrapper in Rust and what make installs
# are tried. From any folder:
#   host/example.sh
# PNO_ARCHIVE names another archive than the one that is built from the repository.
set -euo pipefail
export LC_ALL=C

host=$(cd "$(dirname "${BASH_SOURCE[0]}")" && pwd)
. "$host/common.sh"
. "$host/delivery.sh"
work=$out/example-files
disk=$work/disk.dsk
sample=$top/crates/catalogue/stdin
program=$out/example
with_faults=$out/example-with-faults
within=() # the command that runs the example, where it is not this shell
usage="usage: example [-m] [-d DIRECTORY] IMAGE [judge | (load | read | store | append) NAME FILE | \
overwrite NAME OFFSET FILE | (delete | protect | unprotect | clear) NAME | rename NAME NEW | repair | pack FILE]"
steps=0

fail() {
    echo "the example host: $*" >&2
    exit 1
}

# STATUS TEXT WORD...: the example, called with these words, must end so and print this.
step() {
    local status=$1 text=$2 ended=0
    shift 2
    "${within[@]}" "${emulator[@]}" "$program" "$@" >"$work/printed" 2>&1 || ended=$?
    printf '%s' "${text:+$text
}" >"$work/expected"
    [ "$ended" -eq "$status" ] || fail "status $ended, not $status: $*"
    diff "$work/expected" "$work/printed" >&2 || fail "prints otherwise: $*"
    steps=$((steps + 1))
}

# TEXT IMAGE WORD...: the same of a refusal, which must leave the image's file as it was.
refusal() {
    local text=$1 image=$2
    shift 2
    cp "$image" "$work/before"
    step 1 "refused, $text" "$image" "$@"
    must_be_same "$work/before" "$image"
}

must_be_same() {
    cmp "$1" "$2" >&2 || fail "$2 is not what it should be"
    steps=$((steps + 1))
}

# EXPECTED FOUND: both must be the same words.
must_be() {
    [ "$1" = "$2" ] || fail "$2, not $1"
    steps=$((steps + 1))
}

# FOLDER NAME...: it must have what is named, and nothing else.
must_hold() {
    must_be "${*:2}" "$(ls -A "$1" | paste -sd ' ' -)"
}

# IMAGE SECTOR BYTES: so many bytes of the image from the start of a sector on.
from_sector() {
    dd if="$1" bs=1 skip=$((256 * $2)) count="$3" status=none
}

# IMAGE OFFSET HEX...: the image must have these bytes there.
bytes_at() {
    local image=$1 offset=$2 found
    shift 2
    found=$(od -An -v -tx1 -j "$offset" -N $# "$image" | tr -s ' \n' ' ' | sed 's/^ //; s/ $//')
    [ "$found" = "$*" ] || fail "byte $offset of $image on: $found, not $*"
    steps=$((steps + 1))
}

# BYTES: so many, no two sectors of them alike.
content() {
    head -c "$1" <(seq 100000 200000)
}

case_m() {
    step 0 "number 0: a sound volume" "$disk" judge
    step 0 "SHELF 64 57
ALPHA PROGRAM 300 2 U
NOTES DIS/VAR 80 1 U" "$disk"
    # Bench case 6: ALPHA's block is 22 10 00, sectors 34 and 35.
    step 0 "" "$disk" load ALPHA "$work/alpha"
    from_sector "$disk" 34 300 >"$work/expected"
    must_be_same "$work/expected" "$work/alpha"
    # Bench case 8.
    step 0 "" "$disk" pack "$work/packed.dsk"
    bytes_at "$work/packed.dsk" 56 7f
    bytes_at "$work/packed.dsk" $((256 * 2 + 28)) 04 10 00 00 00 00
    bytes_at "$work/packed.dsk" $((256 * 3 + 28)) 06 00 00 00 00 00
    from_sector "$work/packed.dsk" 4 300 >"$work/expected"
    must_be_same "$work/expected" "$work/alpha"
}

# 1,000 bytes take 4 sectors and the descriptor's. That goes to the lowest free sector, 4, and the
# data to the lowest from 34 up, 37 to 40; 24 bytes of the last are zero.
store_a_program() {
    content 1000 >"$work/beta"
    step 0 "" "$disk" store BETA "$work/beta"
    step 0 "SHELF 64 52
ALPHA PROGRAM 300 2 U
BETA PROGRAM 1000 4 U
NOTES DIS/VAR 80 1 U" "$disk"
    bytes_at "$disk" 56 1f 00 00 00 fc 01
    bytes_at "$disk" 256 00 02 00 04 00 03 00 00
    bytes_at "$disk" $((256 * 4)) 42 45 54 41 20 20 20 20 20 20 00 00 01 00 00 04 e8 00
    bytes_at "$disk" $((256 * 4 + 28)) 25 30 00 00 00 00
    from_sector "$disk" 37 1024 >"$work/found"
    { cat "$work/beta" && head -c 24 /dev/zero; } >"$work/expected"
    must_be_same "$work/expected" "$work/found"
    step 0 "" "$disk" load BETA "$work/beta-again"
    must_be_same "$work/beta" "$work/beta-again"
}

# On case M's volume, which has 57 sectors free: 512 bytes take the descriptor's sector 4 and just 37 and
# 38, their end offset is 0, and they are 512 again. No byte takes the descriptor's sector 5 alone. A file
# of 52 sectors and its descriptor's leave none for that.
store_whole_sectors() {
    local image=$work/whole.dsk
    cp "$sample" "$image"
    content 512 >"$work/pages"
    : >"$work/none"
    step 0 "" "$image" store PAGES "$work/pages"
    step 0 "" "$image" store EMPTY "$work/none"
    step 0 "SHELF 64 53
ALPHA PROGRAM 300 2 U
EMPTY PROGRAM 0 0 U
NOTES DIS/VAR 80 1 U
PAGES PROGRAM 512 2 U" "$image"
    bytes_at "$image" 56 3f 00 00 00 7c 00
    bytes_at "$image" 256 00 02 00 05 00 03 00 04 00 00
    bytes_at "$image" $((256 * 4)) 50 41 47 45 53 20 20 20 20 20 00 00 01 00 00 02 00 00
    bytes_at "$image" $((256 * 4 + 28)) 25 10 00 00 00 00
    bytes_at "$image" $((256 * 5)) 45 4d 50 54 59 20 20 20 20 20 00 00 01 00 00 00 00 00
    bytes_at "$image" $((256 * 5 + 28)) 00 00 00
    from_sector "$image" 37 512 >"$work/found"
    must_be_same "$work/pages" "$work/found"
    step 0 "" "$image" load PAGES "$work/found"
    must_be_same "$work/pages" "$work/found"
    step 0 "" "$image" load EMPTY "$work/found"
    must_be_same "$work/none" "$work/found"
    content $((256 * 52)) >"$work/52-sectors"
    step 0 "" "$image" append FILL "$work/52-sectors"
    refusal "number 12: too few sectors are free" "$image" store NONE "$work/none"
    step 0 "" "$image" delete FILL
    # A program without sectors has end offset 0.
    put_at "$image" $((256 * 5 + 16)) '\x01'
    refusal "number 4: a file's descriptor breaks a rule" "$image" judge
}

# A new data file of 300 bytes takes sectors 5, 41 and 42; NOTES, which has sector 36, goes on in 43.
append_to_files() {
    content 300 >"$work/text"
    content 256 >"$work/note"
    step 0 "" "$disk" append TEXT "$work/text"
    step 0 "" "$disk" append NOTES "$work/note"
    step 0 "SHELF 64 48
ALPHA PROGRAM 300 2 U
BETA PROGRAM 1000 4 U
NOTES DIS/VAR 80 2 U
TEXT DIS/FIX 128 2 U" "$disk"
    bytes_at "$disk" $((256 * 3 + 28)) 24 00 00 2b 10 00 00 00 00
    bytes_at "$disk" $((256 * 5 + 28)) 29 10 00 00 00 00
    from_sector "$disk" 41 768 >"$work/found"
    { cat "$work/text" && head -c 212 /dev/zero && cat "$work/note"; } >"$work/expected"
    must_be_same "$work/expected" "$work/found"
    step 0 "" "$disk" read NOTES "$work/found"
    { from_sector "$disk" 36 256 && cat "$work/note"; } >"$work/expected"
    must_be_same "$work/expected" "$work/found"
}

# 48 sectors are free; the example appends them one by one, and keeps none where the next is refused.
be_refused() {
    content 32769 >"$work/too-long"
    content $((256 * 49)) >"$work/49-sectors"
    refusal "number 8: there is no such file or directory" "$disk" delete GAMMA
    refusal "number 9: there is a file of that name already" "$disk" store ALPHA "$work/beta"
    refusal "number 12: too few sectors are free" "$disk" append TEXT "$work/49-sectors"
    refusal "number 12: too few sectors are free" "$disk" append MORE "$work/49-sectors"
    refusal "number 14: the file is of another kind" "$disk" load NOTES "$work/nothing"
    refusal "number 14: the file is of another kind" "$disk" append BETA "$work/note"
    refusal "number 15: a length, an offset or a status does not fit" "$disk" store LONG "$work/too-long"
    refusal "number 8: there is no such file or directory" "$disk" read GAMMA "$work/nothing"
    [ ! -e "$work/nothing" ] || fail "a refused call has written a file"
}

# WHERE WORD...: a command with a name that breaks its rule there.
misnamed() {
    refusal "number 7: a name breaks its rule: $1" "$disk" "${@:2}"
}

# What is wrong with a name, and with which of two, whatever the command. Characters count from 1; what
# comes after a space is wrong, and not the space.
say_where_a_name_is_wrong() {
    local blank="          "
    misnamed "character 2 of the name" store A.B "$work/beta"
    misnamed "character 2 of the name" load $'A\tB' "$work/nothing"
    misnamed "character 3 of the name" read $'AB\x7f' "$work/nothing"
    misnamed "character 4 of the name" append "AB C" "$work/note"
    misnamed "character 1 of the name" delete .
    misnamed "character 2 of the name" delete " A"
    misnamed "character 10 of the name" delete $'NINEBYTES\xe9'
    misnamed "the name has more than 10 characters" delete ELEVENBYTES
    misnamed "the name has more than 10 characters" delete "$blank "
    misnamed "the name is blank" delete ""
    misnamed "the name is blank" delete "$blank"
    misnamed "character 3 of the old name" rename AL.PHA GAMMA
    misnamed "character 3 of the old name" rename AL.PHA .
    misnamed "character 3 of the new name" rename ALPHA GA.MMA
    misnamed "character 3 of the new name" rename NONE GA.MMA
    misnamed "the old name is blank" rename "" ""
    misnamed "the new name is blank" rename ALPHA ""
    misnamed "the old name has more than 10 characters" rename ELEVENBYTES ELEVENBYTES
    misnamed "the new name has more than 10 characters" rename ALPHA ELEVENBYTES
    [ ! -e "$work/nothing" ] || fail "a refused call has written a file"
    refusal "number 8: there is no such file or directory" "$disk" rename GAMMA DELTA
    refusal "number 9: there is a file of that name already" "$disk" rename ALPHA NOTES
}

# In sector 1 ALPHA's number goes behind that of NOTES, and then back; of its descriptor the name alone changes.
rename_a_file() {
    cp "$disk" "$work/before"
    step 0 "" "$disk" rename ALPHA "TENLETTERS"
    bytes_at "$disk" 256 00 04 00 03 00 02 00 05 00 00
    bytes_at "$disk" $((256 * 2)) 54 45 4e 4c 45 54 54 45 52 53 00 00 01 00 00 02 2c 00
    step 0 "SHELF 64 48
BETA PROGRAM 1000 4 U
NOTES DIS/VAR 80 2 U
TENLETTERS PROGRAM 300 2 U
TEXT DIS/FIX 128 2 U" "$disk"
    step 0 "" "$disk" rename TENLETTERS ALPHA
    must_be_same "$work/before" "$disk"
}

# A sector of NOTES, the second of which is 43, is another one, and no other byte; then NOTES is protected,
# in byte 12 of its descriptor in sector 3, and not.
overwrite_and_protect() {
    cp "$disk" "$work/original.dsk"
    content 1280 | tail -c 256 >"$work/page"
    cp "$disk" "$work/expected-image"
    dd if="$work/page" of="$work/expected-image" bs=256 seek=43 conv=notrunc status=none
    step 0 "" "$disk" overwrite NOTES 1 "$work/page"
    must_be_same "$work/expected-image" "$disk"
    put_at "$work/expected-image" $((256 * 3 + 12)) '\x88'
    step 0 "" "$disk" protect NOTES
    must_be_same "$work/expected-image" "$disk"
    step 0 "" "$disk" protect NOTES
    must_be_same "$work/expected-image" "$disk"
    refusal "number 10: the file is protected" "$disk" overwrite NOTES 1 "$work/page"
    put_at "$work/expected-image" $((256 * 3 + 12)) '\x80'
    step 0 "" "$disk" unprotect NOTES
    must_be_same "$work/expected-image" "$disk"
    refusal "number 15: a length, an offset or a status does not fit" "$disk" overwrite NOTES 2 "$work/page"
    refusal "number 15: a length, an offset or a status does not fit" "$disk" overwrite NOTES 1 "$work/beta"
    refusal "number 14: the file is of another kind" "$disk" overwrite ALPHA 0 "$work/page"
    refusal "number 8: there is no such file or directory" "$disk" protect GAMMA
    refusal "number 7: a name breaks its rule: character 2 of the name" "$disk" unprotect A.B
    step 2 "$usage" "$disk" overwrite NOTES one "$work/page"
    step 2 "$usage" "$disk" overwrite NOTES 1
    cp "$work/original.dsk" "$disk"
}

# A volume that is sound stays as it is; of another the index and the map are made anew, and nothing else.
# ALPHA, BETA, NOTES and TEXT have their descriptors in sectors 2, 4, 3 and 5.
repair_a_volume() {
    local image=$work/repaired.dsk
    cp "$disk" "$image"
    step 0 "" "$image" repair
    must_be_same "$disk" "$image"
    put_at "$image" 256 '\x00\x05\x00\x03\x00\x02\x00\x04'
    step 1 "refused, number 4: a file's descriptor breaks a rule" "$image" judge
    step 0 "" "$image" repair
    must_be_same "$disk" "$image"
    put_at "$image" 56 '\x00\xff\x00\x80'
    step 1 "refused, number 6: the map is not that of the files" "$image" judge
    step 0 "" "$image" repair
    must_be_same "$disk" "$image"
    # A name that stands twice, a number out of range, a sector of two files.
    put_at "$image" $((256 * 5)) 'BETA '
    refusal "number 4: a file's descriptor breaks a rule" "$image" repair
    cp "$disk" "$image"
    put_at "$image" 256 '\x00\x40'
    refusal "number 3: a directory is no list of files" "$image" repair
    cp "$disk" "$image"
    put_at "$image" $((256 * 5 + 28)) '\x25'
    refusal "number 5: a sector has two holders" "$image" repair
    head -c 16383 "$disk" >"$work/short.dsk"
    refusal "number 1: the image's length is not that of a volume" "$work/short.dsk" repair
    step 2 "$usage" "$disk" repair ALPHA
}

# Sectors 2, 34 and 35 are free again, and ALPHA's bytes still lie there.
delete_a_file() {
    step 0 "" "$disk" delete ALPHA
    step 0 "SHELF 64 51
BETA PROGRAM 1000 4 U
NOTES DIS/VAR 80 2 U
TEXT DIS/FIX 128 2 U" "$disk"
    bytes_at "$disk" 56 3b 00 00 00 f0 0f
    bytes_at "$disk" 256 00 04 00 03 00 05 00 00
    from_sector "$disk" 34 300 >"$work/found"
    must_be_same "$work/alpha" "$work/found"
    refusal "number 8: there is no such file or directory" "$disk" load ALPHA "$work/nothing"
}

# Three descriptors from sector 2 on, data from 5 on: BETA 5 to 8, NOTES 9 and 10, TEXT 11 and 12.
pack_twice() {
    cp "$disk" "$work/before"
    step 0 "" "$disk" pack "$work/packed.dsk"
    must_be_same "$work/before" "$disk"
    step 0 "number 0: a sound volume" "$work/packed.dsk" judge
    step 0 "SHELF 64 51
BETA PROGRAM 1000 4 U
NOTES DIS/VAR 80 2 U
TEXT DIS/FIX 128 2 U" "$work/packed.dsk"
    bytes_at "$work/packed.dsk" 56 ff 1f 00 00 00 00
    bytes_at "$work/packed.dsk" $((256 * 2 + 28)) 05 30 00 00 00 00
    bytes_at "$work/packed.dsk" $((256 * 3 + 28)) 09 10 00 00 00 00
    bytes_at "$work/packed.dsk" $((256 * 4 + 28)) 0b 10 00 00 00 00
    from_sector "$work/packed.dsk" 13 $((256 * 51)) >"$work/found"
    head -c $((256 * 51)) /dev/zero | tr '\0' '\345' >"$work/expected"
    must_be_same "$work/expected" "$work/found"
    step 0 "" "$work/packed.dsk" load BETA "$work/beta-again"
    must_be_same "$work/beta" "$work/beta-again"
    step 0 "" "$work/packed.dsk" pack "$work/packed-again.dsk"
    must_be_same "$work/packed.dsk" "$work/packed-again.dsk"
}

# IMAGE: it has a mark, so that every command without -m but clear is refused with 4.
refused_by_the_old_rule() {
    local image=$1 text="number 4: a file's descriptor breaks a rule"
    refusal "$text" "$image"
    refusal "$text" "$image" judge
    refusal "$text" "$image" load ALPHA "$work/nothing"
    refusal "$text" "$image" read NOTES "$work/nothing"
    refusal "$text" "$image" store NEW "$work/beta"
    refusal "$text" "$image" append NOTES "$work/note"
    refusal "$text" "$image" delete ALPHA
    refusal "$text" "$image" rename ALPHA NEW
    refusal "$text" "$image" pack "$work/nothing"
    [ ! -e "$work/nothing" ] || fail "a refused call has written a file"
}

# Case M's volume by the rule that has backup marks: status bit 10 hex. The descriptors of ALPHA and NOTES
# are in sectors 2 and 3, and those of the files that come to them in 4 and 5; byte 12 is the status.
keep_marks() {
    local image=$work/marks.dsk
    cp "$sample" "$image"
    step 0 "number 0: a sound volume" -m "$image" judge
    step 0 "SHELF 64 57
ALPHA PROGRAM 300 2 U -
NOTES DIS/VAR 80 1 U -" -m "$image"
    step 0 "" -m "$image" store BETA "$work/beta"
    bytes_at "$image" $((256 * 4)) 42 45 54 41 20 20 20 20 20 20 00 00 11 00 00 04 e8 00
    step 0 "SHELF 64 52
ALPHA PROGRAM 300 2 U -
BETA PROGRAM 1000 4 U M
NOTES DIS/VAR 80 1 U -" -m "$image"
    refused_by_the_old_rule "$image"
    # By the new rule it is a volume as others are.
    step 0 "number 0: a sound volume" -m "$image" judge
    step 0 "" -m "$image" read ALPHA "$work/found"
    from_sector "$image" 34 512 >"$work/expected"
    must_be_same "$work/expected" "$work/found"
    cp "$image" "$work/less.dsk"
    step 0 "" -m "$work/less.dsk" delete BETA
    step 0 "SHELF 64 57
ALPHA PROGRAM 300 2 U
NOTES DIS/VAR 80 1 U" "$work/less.dsk"
    # What is made and what is changed gets the mark, and nothing else does.
    step 0 "" -m "$image" append TEXT "$work/note"
    bytes_at "$image" $((256 * 5 + 12)) 10 02 00 01 00 80
    bytes_at "$image" $((256 * 3 + 12)) 80
    step 0 "" -m "$image" append NOTES "$work/note"
    bytes_at "$image" $((256 * 3 + 12)) 90 03 00 02
    step 0 "" -m "$image" load ALPHA "$work/found"
    must_be_same "$work/alpha" "$work/found"
    bytes_at "$image" $((256 * 2 + 12)) 01
    step 0 "" -m "$image" rename ALPHA OMEGA
    bytes_at "$image" $((256 * 2 + 12)) 11
    step 0 "" -m "$image" rename OMEGA ALPHA
    # NOTES is protected by hand. Its mark is cleared all the same, with -m or without, and once more.
    put_at "$image" $((256 * 3 + 12)) '\x98'
    step 0 "SHELF 64 49
ALPHA PROGRAM 300 2 U M
BETA PROGRAM 1000 4 U M
NOTES DIS/VAR 80 2 P M
TEXT DIS/FIX 128 1 U M" -m "$image"
    step 1 "refused, number 10: the file is protected" -m "$image" append NOTES "$work/note"
    cp "$image" "$work/expected-image"
    put_at "$work/expected-image" $((256 * 3 + 12)) '\x88'
    step 0 "" -m "$image" clear NOTES
    must_be_same "$work/expected-image" "$image"
    step 0 "" "$image" clear NOTES
    must_be_same "$work/expected-image" "$image"
    step 0 "" "$image" clear BETA
    bytes_at "$image" $((256 * 4 + 12)) 01
    step 0 "SHELF 64 49
ALPHA PROGRAM 300 2 U M
BETA PROGRAM 1000 4 U -
NOTES DIS/VAR 80 2 P -
TEXT DIS/FIX 128 1 U M" -m "$image"
    # Packed, the descriptors lie from sector 2 on in the order of names, marks and all.
    step 0 "" -m "$image" pack "$work/packed.dsk"
    bytes_at "$work/packed.dsk" $((256 * 2 + 12)) 11
    bytes_at "$work/packed.dsk" $((256 * 3 + 12)) 01
    bytes_at "$work/packed.dsk" $((256 * 4 + 12)) 88
    bytes_at "$work/packed.dsk" $((256 * 5 + 12)) 10
    # Without a mark the volume is one by the old rule again.
    step 0 "" "$image" clear ALPHA
    refusal "number 4: a file's descriptor breaks a rule" "$image"
    step 0 "" "$image" clear TEXT
    step 0 "SHELF 64 49
ALPHA PROGRAM 300 2 U
BETA PROGRAM 1000 4 U
NOTES DIS/VAR 80 2 P
TEXT DIS/FIX 128 1 U" "$image"
    be_refused_a_mark "$image"
}

# The worked example of docs/FORMAT.md. A program of 100 bytes has the descriptor's sector 5 and sector 37; a
# data file of a sector 7 and 38.
keep_directories() {
    local image=$work/directories.dsk number
    local none="refused, number 8: there is no such file or directory"
    cp "$sample" "$image"
    put_directories "$image"
    content 100 >"$work/hundred"
    step 0 "number 0: a sound volume" -d 0 "$image" judge
    step 0 "SHELF 64 55
ALPHA PROGRAM 300 2 U
NOTES DIS/VAR 80 1 U" -d 0 "$image"
    step 0 "SHELF 64 55" -d 1 "$image"
    step 0 "" -d 1 "$image" store ALPHA "$work/hundred"
    step 0 "" -d 3 "$image" append LETTER "$work/note"
    bytes_at "$image" 20 47 41 4d 45 53 20 20 20 20 20 00 04 00 00 00 00 00 00 00 00 00 00 00 00 \
        54 45 58 54 53 20 20 20 20 20 00 06 ff 00 00 00 7c 00
    bytes_at "$image" 256 00 02 00 03 00 00
    bytes_at "$image" $((256 * 4)) 00 05 00 00
    bytes_at "$image" $((256 * 5)) 41 4c 50 48 41 20 20 20 20 20 00 00 01 00 00 01 64 00
    bytes_at "$image" $((256 * 5 + 28)) 25 00 00 00 00 00
    bytes_at "$image" $((256 * 6)) 00 07 00 00
    bytes_at "$image" $((256 * 7 + 28)) 26 00 00 00 00 00
    step 0 "SHELF 64 51
ALPHA PROGRAM 300 2 U
NOTES DIS/VAR 80 1 U" -d 0 "$image"
    step 0 "SHELF 64 51
ALPHA PROGRAM 100 1 U" -d 1 "$image"
    step 0 "SHELF 64 51
LETTER DIS/FIX 128 1 U" -d 3 "$image"
    # Files of one name are read each from its directory.
    step 0 "" -d 0 "$image" load ALPHA "$work/found"
    must_be_same "$work/alpha" "$work/found"
    step 0 "" -d 1 "$image" load ALPHA "$work/found"
    must_be_same "$work/hundred" "$work/found"
    step 0 "" -d 3 "$image" read LETTER "$work/found"
    must_be_same "$work/note" "$work/found"
    # There is neither a directory 2 nor one above 3, and no file is found in another directory.
    for number in 2 4 256 4294967297 99999999999999999999; do
        step 1 "$none" -d "$number" "$image"
        step 1 "$none" -d "$number" "$image" store NEW "$work/hundred"
        step 1 "$none" -d "$number" "$image" load ALPHA "$work/nothing"
        step 1 "refused, number 7: a name breaks its rule: character 2 of the name" -d "$number" "$image" \
            delete A.B
    done
    step 1 "$none" -d 3 "$image" load ALPHA "$work/nothing"
    step 1 "$none" -d 0 "$image" read LETTER "$work/nothing"
    step 1 "refused, number 9: there is a file of that name already" -d 1 "$image" store ALPHA "$work/hundred"
    [ ! -e "$work/nothing" ] || fail "a refused call has written a file"
    # A name of the root's may be given in a directory, and back.
    cp "$image" "$work/before"
    step 0 "" -d 1 "$image" rename ALPHA NOTES
    bytes_at "$image" $((256 * 5)) 4e 4f 54 45 53
    step 0 "" -d 1 "$image" rename NOTES ALPHA
    must_be_same "$work/before" "$image"
    # Deleted, it is gone from its directory alone; its sectors are free.
    step 0 "" -d 1 "$image" delete ALPHA
    bytes_at "$image" 56 df 00 00 00 5c 00
    bytes_at "$image" 256 00 02 00 03 00 00
    bytes_at "$image" $((256 * 4)) 00 00
    cp "$work/before" "$image"
    # With -m besides, in either order.
    step 0 "SHELF 64 51
ALPHA PROGRAM 100 1 U -" -m -d 1 "$image"
    step 0 "" -d 1 -m "$image" rename ALPHA OMEGA
    bytes_at "$image" $((256 * 5 + 12)) 11
    step 0 "SHELF 64 51
OMEGA PROGRAM 100 1 U M" -d 1 -m "$image"
    step 1 "refused, number 4: a file's descriptor breaks a rule" -d 1 "$image"
    step 0 "" -d 1 "$image" clear OMEGA
    step 0 "" -d 1 "$image" rename OMEGA ALPHA
    must_be_same "$work/before" "$image"
    pack_directories "$image"
    # By the first edition nobody holds what the directories have.
    refusal "number 6: the map is not that of the files" "$image"
    refusal "number 6: the map is not that of the files" "$image" judge
    refusal "number 6: the map is not that of the files" "$image" delete ALPHA
    refusal "number 6: the map is not that of the files" "$image" clear ALPHA
    refusal "number 6: the map is not that of the files" "$image" pack "$work/nothing"
    be_refused_a_directory "$image"
}

# IMAGE: the indexes go to sectors 2 and 3, the descriptors to 4 to 7, the data to 8 to 12.
pack_directories() {
    local packed=$work/packed.dsk
    step 0 "" -d 0 "$1" pack "$packed"
    bytes_at "$packed" 20 47 41 4d 45 53 20 20 20 20 20 00 02 00 00 00 00 00 00 00 00 00 00 00 00 \
        54 45 58 54 53 20 20 20 20 20 00 03 ff 1f 00 00 00 00
    bytes_at "$packed" 256 00 04 00 05 00 00
    bytes_at "$packed" 512 00 06 00 00
    bytes_at "$packed" 768 00 07 00 00
    bytes_at "$packed" $((256 * 4 + 28)) 08 10 00 00 00 00
    bytes_at "$packed" $((256 * 5 + 28)) 0a 00 00 00 00 00
    bytes_at "$packed" $((256 * 6 + 28)) 0b 00 00 00 00 00
    bytes_at "$packed" $((256 * 7 + 28)) 0c 00 00 00 00 00
    from_sector "$packed" 11 100 >"$work/found"
    must_be_same "$work/hundred" "$work/found"
    from_sector "$packed" 12 256 >"$work/found"
    must_be_same "$work/note" "$work/found"
    step 0 "SHELF 64 51
LETTER DIS/FIX 128 1 U" -d 3 "$packed"
    step 0 "" -d 2 "$packed" pack "$work/packed-again.dsk"
    must_be_same "$packed" "$work/packed-again.dsk"
}

# IMAGE: entries that break a rule are 3 by the second edition and carried by the first; and the words that go
# with -d.
be_refused_a_directory() {
    local bad=$work/bad.dsk three="refused, number 3: a directory is no list of files"
    cp "$sample" "$bad"
    put_at "$bad" 20 'GAMES     '
    step 1 "$three" -d 0 "$bad" judge
    step 0 "number 0: a sound volume" "$bad" judge
    cp "$1" "$bad"
    put_at "$bad" 54 '\x00\x01'
    step 1 "$three" -d 0 "$bad" judge
    put_at "$bad" 54 '\x00\x04'
    step 1 "refused, number 5: a sector has two holders" -d 0 "$bad" judge
    put_at "$bad" 44 'GAMES     \x00\x06'
    step 1 "$three" -d 0 "$bad" judge
    step 1 "refused, number 8: there is no such file or directory" -d 1 "$sample"
    step 2 "$usage" -d
    step 2 "$usage" -d 1
    step 2 "$usage" -d GAMES "$1"
    step 2 "$usage" -d 1x "$1" judge
    step 2 "$usage" -d -1 "$1" judge
    step 2 "$usage" "$1" -d 1 judge
}

# IMAGE: the numbers of clearing a mark, and the words that go with -m.
be_refused_a_mark() {
    refusal "number 8: there is no such file or directory" "$1" clear GAMMA
    refusal "number 7: a name breaks its rule: character 2 of the name" "$1" clear A.B
    refusal "number 7: a name breaks its rule: the name has more than 10 characters" "$1" clear ELEVENBYTES
    step 1 "refused, number 7: a name breaks its rule: character 3 of the new name" -m "$1" rename ALPHA GA.MMA
    head -c 16383 "$1" >"$work/short.dsk"
    refusal "number 1: the image's length is not that of a volume" "$work/short.dsk" clear A.B
    step 1 "refused, number 1: the image's length is not that of a volume" -m "$work/short.dsk" clear A.B
    step 2 "$usage"
    step 2 "$usage" -m
    step 2 "$usage" -m "$1" clear
    step 2 "$usage" "$1" -m judge
}

# Images that are no volume, and a protected file of another disk manager's.
judge_others() {
    head -c 16383 "$disk" >"$work/short.dsk"
    refusal "number 1: the image's length is not that of a volume" "$work/short.dsk" judge
    gzip -dc "$host/vectors/20-small-90-rawname.dsk.gz" >"$work/raw-name.dsk"
    refusal "number 2: sector 0 is no label" "$work/raw-name.dsk" judge
    refusal "number 2: sector 0 is no label" "$work/raw-name.dsk"
    { head -c 60 "$disk" && printf '\0' && tail -c +62 "$disk"; } >"$work/other-map.dsk"
    refusal "number 6: the map is not that of the files" "$work/other-map.dsk" judge
    refusal "number 6: the map is not that of the files" "$work/other-map.dsk" store NEW "$work/beta"
    gzip -dc "$host/vectors/17-small-252-mix.dsk.gz" >"$work/mix.dsk"
    refusal "number 10: the file is protected" "$work/mix.dsk" delete LOCKED
}

# REASON FILE IMAGE WORD...: the file cannot be written, for this reason. All that its folder has must
# stay as it was, and nothing may come to it.
unwritten() {
    local reason=$1 file=$2 folder
    folder=$(dirname "$file")
    shift 2
    cp "$file" "$work/before"
    ls -lAi --full-time "$folder" >"$work/listed"
    step 2 "cannot write $file: $reason" "$@"
    ls -lAi --full-time "$folder" | diff "$work/listed" - >&2 || fail "$folder has changed: $*"
    must_be_same "$work/before" "$file"
}

# FOLDER: makes it, or empties it, and lays case M's volume there as disk.dsk, and a file.
lay_disk() {
    rm -rf "$1"
    mkdir "$1"
    cp "$sample" "$1/disk.dsk"
    echo "what was there before" >"$1/file"
}

# What the steps from here on have to leave on case M's volume where they are not kept from it: ALPHA
# is deleted, so sectors 2, 34 and 35 are free and NOTES is the only number in sector 1.
make_deleted() {
    deleted=$work/deleted.dsk
    cp "$sample" "$deleted"
    put_at "$deleted" 56 '\x0b'
    put_at "$deleted" 60 '\x10'
    put_at "$deleted" 256 '\x00\x03\x00\x00'
    step 0 "SHELF 64 60
NOTES DIS/VAR 80 1 U" "$deleted"
}

# A link, the mode, a path without a folder; a new file has the mode that new files have.
keep_link_and_mode() {
    local folder=$work/kept mask inode
    mask=$(umask)
    lay_disk "$folder"
    mkdir "$folder/links"
    ln -s ../disk.dsk "$folder/links/link.dsk"
    ln -s ../file "$folder/links/file"
    chmod 604 "$folder/disk.dsk" "$folder/file"
    inode=$(stat -c %i "$folder/disk.dsk")
    step 0 "" "$folder/links/link.dsk" load ALPHA "$folder/links/file"
    must_be_same "$work/alpha" "$folder/file"
    must_be ../file "$(readlink "$folder/links/file")"
    must_be 604 "$(stat -c %a "$folder/file")"
    step 0 "" "$folder/links/link.dsk" delete ALPHA
    must_be_same "$deleted" "$folder/disk.dsk"
    must_be ../disk.dsk "$(readlink "$folder/links/link.dsk")"
    must_be "604 $inode" "$(stat -c '%a %i' "$folder/disk.dsk")"
    cp "$sample" "$folder/disk.dsk"
    within=(env -C "$folder")
    step 0 "" disk.dsk delete ALPHA
    must_be_same "$deleted" "$folder/disk.dsk"
    umask 026
    step 0 "" disk.dsk pack packed.dsk
    umask "$mask"
    within=()
    must_be 640 "$(stat -c %a "$folder/packed.dsk")"
    must_hold "$folder" disk.dsk file links packed.dsk
    must_hold "$folder/links" file link.dsk
}

# What is neither a file nor a place for one.
write_elsewhere() {
    local folder=$work/elsewhere image
    image=$folder/disk.dsk
    lay_disk "$folder"
    ln -s nowhere "$folder/link"
    mkfifo "$folder/pipe"
    timeout 10 cat "$folder/pipe" >"$work/found" &
    step 0 "" "$image" load ALPHA "$folder/pipe"
    wait $! || fail "nothing came through a pipe"
    must_be_same "$work/alpha" "$work/found"
    step 2 "cannot write $folder/link: No such file or directory" "$image" load ALPHA "$folder/link"
    step 2 "cannot write $folder: Is a directory" "$image" load ALPHA "$folder"
    step 2 "cannot write $folder/no/file: No such file or directory" "$image" load ALPHA "$folder/no/file"
    step 2 "cannot read $folder/none: No such file or directory" "$folder/none"
    step 2 "cannot read $folder: Is a directory" "$image" store NEW "$folder"
    [ -p "$folder/pipe" ] || fail "a pipe is replaced"
    must_hold "$folder" disk.dsk file link pipe
    must_be_same "$sample" "$image"
}

full_output() {
    within=(bash -c 'exec "$@" >/dev/full' bash)
    step 2 "cannot write standard output: No space left on device" "$disk"
    step 2 "cannot write standard output: No space left on device" "$disk" judge
    within=()
}

# A command that prints nothing does not miss it.
closed_output() {
    within=(bash -c 'exec "$@" >&-' bash)
    step 2 "cannot write standard output: Bad file descriptor" "$disk"
    step 2 "cannot write standard output: Bad file descriptor" "$disk" judge
    step 0 "" "$disk" pack "$work/packed.dsk"
    within=()
}

# No file may have more than 8,192 bytes, half of the image; the signal for that is ignored. The sectors of
# programs lie behind that, and those that a delete writes do not.
limited_file() {
    local folder=$work/limited
    lay_disk "$folder"
    within=(bash -c 'trap "" XFSZ && ulimit -f 8 && exec "$@"' bash)
    unwritten "File too large" "$folder/disk.dsk" "$folder/disk.dsk" store BETA "$work/beta"
    unwritten "File too large" "$folder/file" "$folder/disk.dsk" pack "$folder/file"
    step 0 "" "$folder/disk.dsk" delete ALPHA
    within=()
    must_be_same "$deleted" "$folder/disk.dsk"
}

# The same signal, number 25, kills in the middle of writing. A file that is to be replaced is as it was. Of
# the image the sectors are written that come before: BETA's are 37 to 40, and no file may reach sector 40.
killed() {
    local folder=$work/killed
    lay_disk "$folder"
    cp "$folder/file" "$work/before"
    within=(bash -c 'exec 2>/dev/null && ulimit -c 0 && ulimit -f 8 && "$@"; exit $?' bash)
    step $((128 + 25)) "" "$folder/disk.dsk" pack "$folder/file"
    must_be_same "$work/before" "$folder/file"
    must_be 8192 "$(stat -c %s "$folder"/pnoelithe-??????)"
    within=(bash -c 'exec 2>/dev/null && ulimit -c 0 && ulimit -f 10 && "$@"; exit $?' bash)
    step $((128 + 25)) "" "$folder/disk.dsk" store BETA "$work/beta"
    within=()
    cp "$sample" "$work/expected-image"
    dd if="$work/beta" of="$work/expected-image" bs=256 seek=37 count=3 conv=notrunc status=none
    must_be_same "$work/expected-image" "$folder/disk.dsk"
    step 0 "" "$folder/disk.dsk" repair
    must_be_same "$work/expected-image" "$folder/disk.dsk"
}

compile_with_faults() {
    local call wraps=()
    for call in write pwrite fchmod fsync close rename; do
        wraps+=("-Wl,--wrap=$call")
    done
    "${compiler[@]}" -std=c11 "${strict[@]}" -I"$top/include" "$host/example.c" "$host/faults.c" \
        "$archive" "${wraps[@]}" -o "$with_faults"
}

# Calls to the system that fail while a file is replaced, by their place among the calls of that name: the
# first fsync is the file's, the second one its folder's.
faulty_files() {
    local folder=$work/faulty fault reason image file
    image=$folder/disk.dsk
    file=$folder/file
    program=$with_faults
    lay_disk "$folder"
    while IFS=: read -r fault reason; do
        within=(env FAULT="$fault")
        unwritten "$reason" "$file" "$image" pack "$file"
    done <<'END'
fchmod 1 1:Operation not permitted
write 1 28:No space left on device
fsync 1 122:Disk quota exceeded
close 1 5:Input/output error
rename 1 16:Device or resource busy
END
    cp "$file" "$work/before"
    for fault in "write 1 end" "fsync 1 end" "close 1 end" "rename 1 end"; do
        within=(env FAULT="$fault")
        step 99 "" "$image" pack "$file"
        must_be_same "$work/before" "$file"
        rm "$folder"/pnoelithe-??????
    done
    within=()
    step 0 "" "$image" pack "$work/packed.dsk"
    # Error 4 is that of a call that was interrupted, 22 that of a folder which knows no fsync.
    for fault in "write 1 short" "write 1 4" "fsync 2 22" "fsync 2 end" "fsync 2 5"; do
        lay_disk "$folder"
        within=(env FAULT="$fault")
        case $fault in
        *end) step 99 "" "$image" pack "$file" ;;
        *5) step 2 "cannot sync the folder of $file: Input/output error" "$image" pack "$file" ;;
        *) step 0 "" "$image" pack "$file" ;;
        esac
        must_be_same "$work/packed.dsk" "$file"
        must_hold "$folder" disk.dsk file
    done
    # Error 1: the file system gives its own modes to new files.
    lay_disk "$folder"
    within=(env FAULT="fchmod 1 1")
    step 0 "" "$image" load ALPHA "$folder/alpha"
    must_be_same "$work/alpha" "$folder/alpha"
    must_be_same "$sample" "$image"
    within=()
    program=$out/example
}

# The same while sectors of an image are written. A delete writes sector 1, then sector 0: after the first of
# them the map still has what ALPHA had, until it is repaired.
faulty_sectors() {
    local folder=$work/faulty fault reason image
    image=$folder/disk.dsk
    program=$with_faults
    lay_disk "$folder"
    while IFS=: read -r fault reason; do
        within=(env FAULT="$fault")
        unwritten "$reason" "$image" "$image" delete ALPHA
    done <<'END'
pwrite 1 28:No space left on device
pwrite 1 5:Input/output error
END
    cp "$deleted" "$work/expected-image"
    put_at "$work/expected-image" 56 '\x0f'
    put_at "$work/expected-image" 60 '\x1c'
    while IFS=: read -r fault reason; do
        lay_disk "$folder"
        within=(env FAULT="$fault")
        step 2 "cannot write $image: $reason; it is to be repaired" "$image" delete ALPHA
        within=()
        must_be_same "$work/expected-image" "$image"
        refusal "number 6: the map is not that of the files" "$image" judge
        step 0 "" "$image" repair
        must_be_same "$deleted" "$image"
    done <<'END'
pwrite 2 28:No space left on device
fsync 1 5:Input/output error
END
    # Half of a sector is written, and the rest then; error 4 is that of a call that was interrupted, 22 that
    # of a file which knows no fsync.
    for fault in "pwrite 1 short" "pwrite 2 short" "pwrite 1 4" "pwrite 2 4" "fsync 1 22" "fsync 2 22" \
        "fsync 2 5" "close 1 5"; do
        lay_disk "$folder"
        within=(env FAULT="$fault")
        case $fault in
        fsync*" 5") step 2 "cannot write $image: Input/output error; it is to be repaired" "$image" delete ALPHA ;;
        close*) step 2 "cannot write $image: Input/output error" "$image" delete ALPHA ;;
        *) step 0 "" "$image" delete ALPHA ;;
        esac
        must_be_same "$deleted" "$image"
        must_hold "$folder" disk.dsk file
    done
    # The first sector of a store has other bytes to its end.
    within=()
    cp "$sample" "$work/expected-image"
    step 0 "" "$work/expected-image" store BETA "$work/beta"
    lay_disk "$folder"
    within=(env FAULT="pwrite 1 short")
    step 0 "" "$image" store BETA "$work/beta"
    must_be_same "$work/expected-image" "$image"
    within=()
    program=$out/example
}

# IMAGE: what is on it by $options, directory by directory: the listing, and a sum of each file's sectors.
shown() {
    local image=$1 number name
    for number in "${directories[@]}"; do
        options[-1]=$number
        "${emulator[@]}" "$program" "${options[@]}" "$image" >"$work/listing"
        cat "$work/listing"
        while read -r name _; do
            "${emulator[@]}" "$program" "${options[@]}" "$image" read "$name" /dev/stdout | cksum
        done < <(tail -n +2 "$work/listing")
    done
}

# WRITES IMAGE DIRECTORY WORD...: a command that makes so many writes, by $marks, is ended before each of them
# and after the last. Repaired, the image must be sound, and hold what it did before the command or what
# it holds after it: the former where nothing was written, the latter where all was. With $between set, what it
# holds after the first write.
cut_at_every_write() {
    local writes=$1 image=$2 directory=$3 before after found count cut=$work/cut.dsk
    local options=("${marks[@]}" -d "$directory")
    shift 3
    cp "$image" "$work/whole.dsk"
    step 0 "" "${options[@]}" "$work/whole.dsk" "$@"
    before=$(shown "$image")
    after=$(shown "$work/whole.dsk")
    for ((count = 0; count <= writes; count++)); do
        cp "$image" "$cut"
        program=$with_faults
        within=(env FAULT="pwrite $((count + 1)) end")
        options[-1]=$directory
        step $((count < writes ? 99 : 0)) "" "${options[@]}" "$cut" "$@"
        within=()
        program=$out/example
        step 0 "" "${options[@]}" "$cut" repair
        found=$(shown "$cut")
        case $count in
        0) must_be "$before" "$found" ;;
        "$writes") must_be "$after" "$found" && must_be_same "$work/whole.dsk" "$cut" ;;
        1) [ "$found" = "${between:-$before}" ] || must_be "$after" "$found" ;;
        *) [ "$found" = "$before" ] || must_be "$after" "$found" ;;
        esac
    done
}

# WRITES IMAGE: a repair of an image that is not sound, ended before each of its writes and begun again, by
# $marks.
cut_a_repair() {
    local writes=$1 image=$2 count cut=$work/cut.dsk
    cp "$image" "$work/whole.dsk"
    step 0 "" "${marks[@]}" -d 0 "$work/whole.dsk" repair
    for ((count = 0; count <= writes; count++)); do
        cp "$image" "$cut"
        program=$with_faults
        within=(env FAULT="pwrite $((count + 1)) end")
        step $((count < writes ? 99 : 0)) "" "${marks[@]}" -d 0 "$cut" repair
        within=()
        program=$out/example
        step 0 "" "${marks[@]}" -d 0 "$cut" repair
        must_be_same "$work/whole.dsk" "$cut"
    done
}

# Each call, in the root without marks and in a directory with them, on the volume with two directories:
# ALPHA and NOTES are in the root, ALPHA and LETTER in the first directory, and the third has WORDS.
cut_every_call() {
    local image=$work/cuts.dsk marks=() directories=(0 1 3) between=
    cp "$sample" "$image"
    put_directories "$image"
    step 0 "" -d 1 "$image" store ALPHA "$work/hundred"
    step 0 "" -d 1 "$image" append LETTER "$work/text"
    step 0 "" -d 3 "$image" append WORDS "$work/note"
    cut_calls_on 0 NOTES
    cut_at_every_write 1 "$image" 0 overwrite NOTES 0 "$work/page"
    marks=(-m)
    cut_calls_on 1 LETTER
    cut_overwriting
    put_at "$image" 256 '\x00\x03\x00\x02'
    put_at "$image" $((256 * 4)) '\x00\x07\x00\x05'
    put_at "$image" 56 '\x00'
    step 1 "refused, number 4: a file's descriptor breaks a rule" -d 0 "$image" judge
    cut_a_repair 4 "$image"
}

# DIRECTORY NAME: the calls but for overwriting, on ALPHA and on another file of a directory.
cut_calls_on() {
    cut_at_every_write 7 "$image" "$1" store BETA "$work/beta"
    cut_at_every_write 3 "$image" "$1" store BETA "$work/none"
    cut_at_every_write 3 "$image" "$1" append MORE "$work/none"
    cut_at_every_write 3 "$image" "$1" append "$2" "$work/note"
    cut_at_every_write 2 "$image" "$1" delete ALPHA
    cut_at_every_write 2 "$image" "$1" rename ALPHA ZETA
    cut_at_every_write 2 "$image" "$1" rename ALPHA ALPHABET
    cut_at_every_write 1 "$image" "$1" protect "$2"
    cut_at_every_write 1 "$image" "$1" unprotect "$2"
    cut_at_every_write 1 "$image" "$1" clear "$2"
}

# With marks there are two writes, and between them the file has its old bytes and the mark.
cut_overwriting() {
    cp "$image" "$work/marked.dsk"
    put_at "$work/marked.dsk" $((256 * 3 + 12)) '\x90'
    local options=(-m -d 0)
    between=$(shown "$work/marked.dsk")
    cut_at_every_write 2 "$image" 0 overwrite NOTES 0 "$work/page"
    cut_at_every_write 2 "$work/marked.dsk" 0 overwrite NOTES 0 "$work/page"
}

# As a user who may not write everywhere, in a folder that every user reaches.
forbidden_places() {
    local other=65534 folder image file
    if [ "$(id -u)" -ne 0 ]; then
        other=$(id -u)
    else
        within=(setpriv --reuid "$other" --regid "$other" --clear-groups)
        if ! "${within[@]}" true 2>/dev/null; then
            echo "places that may not be written are not tried: root writes everywhere"
            within=()
            return
        fi
    fi
    open=$(mktemp -d)
    trap 'rm -rf "$open"' EXIT
    chmod 755 "$open"
    program=$open/example
    cp "$out/example" "$program"
    folder=$open/folder
    image=$folder/disk.dsk
    lay_disk "$folder"
    file=$folder/file
    chmod 666 "$image" "$file"
    chmod 555 "$folder"
    unwritten "Permission denied" "$file" "$image" load ALPHA "$file"
    step 2 "cannot write $folder/new: Permission denied" "$image" load ALPHA "$folder/new"
    # The image is written in place, which its folder has no part in.
    step 0 "" "$image" delete ALPHA
    must_be_same "$deleted" "$image"
    must_be "666 $(id -u)" "$(stat -c '%a %u' "$image")"
    cp "$sample" "$image"
    chmod 777 "$folder"
    chmod 444 "$image" "$file"
    unwritten "Permission denied" "$image" "$image" delete ALPHA
    unwritten "Permission denied" "$file" "$image" load ALPHA "$file"
    if [ ${#within[@]} -gt 0 ]; then
        # The owner of the new file could not be that of the old one.
        chmod 666 "$file"
        unwritten "Operation not permitted" "$file" "$image" load ALPHA "$file"
        chmod 600 "$image"
        step 2 "cannot read $image: Permission denied" "$image"
        chown "$other:$other" "$image" "$file"
        within=()
    else
        chmod 600 "$image"
    fi
    chmod 600 "$file"
    step 0 "" "$image" load ALPHA "$file"
    must_be_same "$work/alpha" "$file"
    must_be "600 $other" "$(stat -c '%a %u' "$file")"
    step 0 "" "$image" delete ALPHA
    must_be_same "$deleted" "$image"
    must_be "600 $other" "$(stat -c '%a %u' "$image")"
    program=$out/example
}

# A disk on which the image has room once, and not twice: that is enough to change it, and not to pack it
# there; then one that may only be read. They are mounted in a namespace of their own, in which this script
# is run again.
small_disk() {
    local small=$work/small private more
    mkdir "$small"
    for private in -rm -m; do
        unshare "$private" mount -t tmpfs none "$small" 2>/dev/null || continue
        more=$(unshare "$private" "$host/example.sh" on-small-disk) || exit
        steps=$((steps + more))
        return
    done
    echo "a full disk and a read-only one are not tried: none can be mounted here"
}

on_small_disk() {
    local small=$work/small
    mount -t tmpfs -o size=28k none "$small"
    cp "$sample" "$small/disk.dsk"
    step 2 "cannot write $small/new.dsk: No space left on device" "$disk" pack "$small/new.dsk"
    must_hold "$small" disk.dsk
    step 0 "" "$small/disk.dsk" delete ALPHA
    must_be_same "$work/deleted.dsk" "$small/disk.dsk"
    unwritten "No space left on device" "$small/disk.dsk" "$disk" pack "$small/disk.dsk"
    mount -o remount,bind,ro "$small"
    unwritten "Read-only file system" "$small/disk.dsk" "$small/disk.dsk" delete NOTES
    echo "$steps"
}

prepare_c
if [ "${1:-}" = on-small-disk ]; then
    on_small_disk
    exit
fi
find_archive
compile_example
rm -rf "$work"
mkdir "$work"
compile_header
show_header
show_wrapper
install_library
build_by_make
host_by_pkg_config
host_by_cmake
host_in_cpp
if [ ! -f "$sample" ]; then
    echo "the example host is not run: the repository has no crates/catalogue"
    exit
fi
cp "$sample" "$disk"
case_m
store_a_program
store_whole_sectors
append_to_files
be_refused
say_where_a_name_is_wrong
rename_a_file
overwrite_and_protect
repair_a_volume
delete_a_file
pack_twice
keep_marks
keep_directories
judge_others
make_deleted
keep_link_and_mode
write_elsewhere
full_output
limited_file
if [ ${#emulator[@]} -eq 0 ]; then
    closed_output
    killed
else
    echo "a closed output and a kill by a signal are not tried: an emulator has its own of both"
fi
compile_with_faults
faulty_files
faulty_sectors
cut_every_call
forbidden_places
small_disk
echo "the example host: $steps steps as expected"
