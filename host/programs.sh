#!/usr/bin/env bash
# Runs the programs on files on disk, step by step, by ./run: what each writes to standard output and to
# standard error, and the status that ./run gives. What must come stands here, written down from the
# programs' pages and the paper. From any folder:
#   host/programs.sh          the steps
#   host/programs.sh shelf    measures masters on 5,000 images of 360 sectors, and its growth
# PNO_ARCHIVE names another archive than the one that is built from the repository.
set -euo pipefail

host=$(cd "$(dirname "${BASH_SOURCE[0]}")" && pwd)
. "$host/common.sh"
work=$out/program-files
belt_data=$top/crates/belt/data
steps=0

fail() {
    echo "the programs: $*" >&2
    exit 1
}

# STATUS OUTPUT ERRORS WORD...: ./run, called with these words, must end so and write these two texts.
step() {
    local status=$1 ended=0
    printf '%s' "${2:+$2
}" >"$work/output"
    printf '%s' "${3:+$3
}" >"$work/errors"
    shift 3
    "$top/run" "$@" >"$work/written" 2>"$work/told" || ended=$?
    [ "$ended" -eq "$status" ] || fail "status $ended, not $status: $*"
    diff "$work/output" "$work/written" >&2 || fail "standard output is otherwise: $*"
    diff "$work/errors" "$work/told" >&2 || fail "standard error is otherwise: $*"
    steps=$((steps + 1))
}

must_be() {
    [ "$1" = "$2" ] || fail "$3: $1, not $2"
    steps=$((steps + 1))
}

# Case M's volume, one with a bit of the map cleared, and others of another disk manager's, in $work/images.
# Two are case M's volume with a backup mark, status bit 10 hex: one on ALPHA, whose status is byte 524, and
# one on NOTES, whose status is byte 780, which is protected there too. Others are of the second edition, with
# two directories: GAMES, which has a program ALPHA, and TEXTS, which has LETTER.
lay_out() {
    mkdir -p "$work/images"
    cd "$work/images"
    cp "$top/crates/catalogue/stdin" sound.dsk
    { head -c 60 sound.dsk && printf '\0' && tail -c +62 sound.dsk; } >map.dsk
    gzip -dc "$host/vectors/20-small-90-rawname.dsk.gz" >label.dsk
    gzip -dc "$host/vectors/23-small-258-toolong.dsk.gz" >long.dsk
    : >empty.dsk
    { head -c 524 sound.dsk && printf '\x11' && tail -c +526 sound.dsk; } >marked.dsk
    { head -c 780 sound.dsk && printf '\x98' && tail -c +782 sound.dsk; } >locked.dsk
    cp sound.dsk ./--marks
    lay_out_directories
    lay_out_damage
}

# directories.dsk; the same with a mark on LETTER, whose status is byte 1804, with one index for two entries,
# with an entry that has no name, and with LETTER's status broken; and one of no directory whose carried bytes
# are no entries.
lay_out_directories() {
    cp sound.dsk directories.dsk
    put_directories directories.dsk
    seq 100 130 >"$work/program"
    "${emulator[@]}" "$out/example" -d 1 directories.dsk store ALPHA "$work/program"
    "${emulator[@]}" "$out/example" -d 3 directories.dsk append LETTER "$work/program"
    cp directories.dsk marked-directories.dsk
    put_at marked-directories.dsk 1804 '\x10'
    cp directories.dsk one-index.dsk
    put_at one-index.dsk 54 '\x00\x04'
    cp directories.dsk no-name.dsk
    put_at no-name.dsk 20 '\x00\x00\x00\x00\x00\x00\x00\x00\x00\x00'
    cp directories.dsk status.dsk
    put_at status.dsk 1804 '\x04'
    cp "$belt_data/0-carried.dsk" carried.dsk
    cp directories.dsk ./--directories
}

# What mend is given beside the images of crates/belt/data: 4-order with a bit of the map cleared, and with a
# sector that two files hold; a byte of the map cleared on both images with a mark on them; directories.dsk with a
# second program in GAMES, that with the two numbers of GAMES' index exchanged, which is sector 4, and with the map
# of what the root holds alone, which is case M's.
lay_out_damage() {
    cp "$belt_data/4-order.dsk" order-map.dsk
    put_at order-map.dsk 60 '\xf8'
    cp "$belt_data/4-order.dsk" order-holders.dsk
    put_at order-holders.dsk 540 '\x23'
    cp marked.dsk marked-map.dsk
    put_at marked-map.dsk 60 '\x00'
    cp marked-directories.dsk marked-directories-map.dsk
    put_at marked-directories-map.dsk 60 '\x00'
    cp directories.dsk games.dsk
    "${emulator[@]}" "$out/example" -d 1 games.dsk store BETA "$work/program"
    cp games.dsk games-order.dsk
    put_at games-order.dsk 1024 '\x00\x08\x00\x05'
    cp games.dsk games-root.dsk
    dd if=sound.dsk of=games-root.dsk bs=1 skip=56 seek=56 count=200 conv=notrunc status=none
}

missing='No such file or directory'
listing='SHELF 64 57
ALPHA PROGRAM 300 2 U
NOTES DIS/VAR 80 1 U'

# The same by the new rule, of the images without a mark and with one.
by_marks='SHELF 64 57
ALPHA PROGRAM 300 2 U -
NOTES DIS/VAR 80 1 U -'
marked='SHELF 64 57
ALPHA PROGRAM 300 2 U M
NOTES DIS/VAR 80 1 U -'
locked='SHELF 64 57
ALPHA PROGRAM 300 2 U -
NOTES DIS/VAR 80 1 P M'

# The root of the images with directories, by the second edition.
by_directories='SHELF 64 51
ALPHA PROGRAM 300 2 U
NOTES DIS/VAR 80 1 U'

# One image for each number, as crates/belt/README.md has them, with its ground.
grounds=('0-carried a sound volume'
    '1-empty the image'\''s length is not that of a volume'
    '2-name-dot sector 0 is no label'
    '3-too-low a directory is no list of files'
    '4-order a file'\''s descriptor breaks a rule'
    '5-twice a sector has two holders'
    '6-set the map is not that of the files')

try_belt() {
    local ground image number=0 lines='' words=()
    step 0 '0 sound.dsk' '1 image: 1 sound' belt sound.dsk
    step 1 '0 sound.dsk
6 map.dsk' '2 images: 1 sound, 1 of number 6' belt sound.dsk map.dsk
    step 2 '6 map.dsk
- missing.dsk
0 sound.dsk
1 empty.dsk' "missing.dsk: $missing
4 images: 1 sound, 1 of number 1, 1 of number 6, 1 unread" belt map.dsk missing.dsk sound.dsk empty.dsk
    step 2 '- .' '.: Is a directory
1 image: 0 sound, 1 unread' belt .
    step 0 '0' '1 image: 1 sound' belt <sound.dsk
    step 1 '6' '1 image: 0 sound, 1 of number 6' belt <map.dsk
    step 1 '6: the map is not that of the files' '1 image: 0 sound, 1 of number 6' belt -v <map.dsk
    step 2 '- missing.dsk: not read' "missing.dsk: $missing
1 image: 0 sound, 1 unread" belt -v missing.dsk
    for ground in "${grounds[@]}"; do
        image=$belt_data/${ground%% *}.dsk
        words+=("$image")
        lines+=${lines:+$'\n'}"$number $image: ${ground#* }"
        number=$((number + 1))
    done
    step 1 "$lines" '7 images: 1 sound, 1 of number 1, 1 of number 2, 1 of number 3, '\
'1 of number 4, 1 of number 5, 1 of number 6' belt -v "${words[@]}"
    step 1 "$lines" '7 images: 1 sound, 1 of number 1, 1 of number 2, 1 of number 3, '\
'1 of number 4, 1 of number 5, 1 of number 6' belt -v --marks "${words[@]}"
    # The count that the belt's page has as its example.
    mapfile -t words < <(printf 'sound.dsk\n%.0s' {1..398} && printf 'map.dsk\n%.0s' {1..9} && printf 'missing.dsk\n%.0s' {1..5})
    must_be "$("$top/run" belt "${words[@]}" 2>&1 >"$work/written" | tail -n 1)" \
        '412 images: 398 sound, 9 of number 6, 5 unread' 'the last line of 412 images'
    must_be "$(wc -l <"$work/written")" 412 'lines of 412 images'
}

# A mark is number 4 by the old rule, and none by the new one. Behind an image there are no options.
try_belt_by_marks() {
    step 1 '4 marked.dsk
0 sound.dsk
4 locked.dsk' '3 images: 1 sound, 2 of number 4' belt marked.dsk sound.dsk locked.dsk
    step 0 '0 marked.dsk
0 sound.dsk
0 locked.dsk' '3 images: 3 sound' belt --marks marked.dsk sound.dsk locked.dsk
    step 2 '0 marked.dsk: a sound volume
6 map.dsk: the map is not that of the files
- missing.dsk: not read' "missing.dsk: $missing
3 images: 1 sound, 1 of number 6, 1 unread" belt --marks -v marked.dsk map.dsk missing.dsk
    step 1 '4' '1 image: 0 sound, 1 of number 4' belt <marked.dsk
    step 0 '0' '1 image: 1 sound' belt --marks <marked.dsk
    step 0 '0: a sound volume' '1 image: 1 sound' belt -v --marks <marked.dsk
    step 1 '4 marked.dsk
0 --marks' '2 images: 1 sound, 1 of number 4' belt marked.dsk --marks
    step 0 '0 --marks' '1 image: 1 sound' belt -- --marks
    step 0 '0 --marks
0 marked.dsk' '2 images: 2 sound' belt --marks -- --marks marked.dsk
}

# A directory is number 6 by the first edition, and none by the second, which finds its own faults: 3 in an entry,
# 4 in a directory's file, 5 where two entries have one index.
try_belt_by_directories() {
    step 1 '6 directories.dsk
0 sound.dsk
6 one-index.dsk
6 no-name.dsk
6 status.dsk
0 carried.dsk' '6 images: 2 sound, 4 of number 6' belt directories.dsk sound.dsk one-index.dsk no-name.dsk \
        status.dsk carried.dsk
    step 1 '0 directories.dsk
0 sound.dsk
5 one-index.dsk
3 no-name.dsk
4 status.dsk
3 carried.dsk
6 map.dsk
1 empty.dsk' '8 images: 2 sound, 1 of number 1, 2 of number 3, 1 of number 4, 1 of number 5, 1 of number 6' \
        belt --directories directories.dsk sound.dsk one-index.dsk no-name.dsk status.dsk carried.dsk map.dsk \
        empty.dsk
    # With marks besides, in either order.
    step 1 '6 marked-directories.dsk' '1 image: 0 sound, 1 of number 6' belt --marks marked-directories.dsk
    step 1 '4 marked-directories.dsk' '1 image: 0 sound, 1 of number 4' belt --directories \
        marked-directories.dsk
    step 0 '0 marked-directories.dsk
0 marked.dsk' '2 images: 2 sound' belt --marks --directories marked-directories.dsk marked.dsk
    step 0 '0 marked-directories.dsk: a sound volume' '1 image: 1 sound' belt --directories -v --marks \
        marked-directories.dsk
    step 2 '0 directories.dsk
- missing.dsk' "missing.dsk: $missing
2 images: 1 sound, 1 unread" belt --directories directories.dsk missing.dsk
    step 1 '6' '1 image: 0 sound, 1 of number 6' belt <directories.dsk
    step 0 '0' '1 image: 1 sound' belt --directories <directories.dsk
    step 1 '6 directories.dsk
6 --directories' '2 images: 0 sound, 2 of number 6' belt directories.dsk --directories
    step 0 '0 --directories' '1 image: 1 sound' belt --directories -- --directories
}

# A newline would begin another line, on either output.
try_names() {
    cp sound.dsk $'two\nlines.dsk'
    cp map.dsk ./-v
    step 2 '0 two?lines.dsk
- no?file.dsk' "no?file.dsk: $missing
2 images: 1 sound, 1 unread" belt $'two\nlines.dsk' $'no\nfile.dsk'
    step 0 "==> two?lines.dsk <==
$listing" '1 image: 1 sound' listings $'two\nlines.dsk'
    step 0 '0 1 two?lines.dsk' '1 image: 1 sound' masters $'two\nlines.dsk'
    step 1 '6 -v' '1 image: 0 sound, 1 of number 6' belt -- -v
    step 1 '6 -v: the map is not that of the files' '1 image: 0 sound, 1 of number 6' belt -v -- -v
}

try_listings() {
    step 2 "==> sound.dsk <==
$listing

==> map.dsk <==
REFUSED 6

==> missing.dsk <==
-

==> long.dsk <==
$(cat "$host/vectors/23-small-258-toolong.rows.txt")" "missing.dsk: $missing
4 images: 2 sound, 1 of number 6, 1 unread" listings sound.dsk map.dsk missing.dsk long.dsk
    step 1 '==> label.dsk <==
REFUSED 2' '1 image: 0 sound, 1 of number 2' listings label.dsk
}

# By the new rule each file's line has a field more, and that of the disk has none. In long.dsk no file has
# a mark.
try_listings_by_marks() {
    step 1 '==> marked.dsk <==
REFUSED 4

==> locked.dsk <==
REFUSED 4' '2 images: 0 sound, 2 of number 4' listings marked.dsk locked.dsk
    step 2 "==> sound.dsk <==
$by_marks

==> marked.dsk <==
$marked

==> map.dsk <==
REFUSED 6

==> missing.dsk <==
-

==> locked.dsk <==
$locked

==> long.dsk <==
$(sed '2,$s/$/ -/' "$host/vectors/23-small-258-toolong.rows.txt")" "missing.dsk: $missing
6 images: 4 sound, 1 of number 6, 1 unread" listings --marks sound.dsk marked.dsk map.dsk missing.dsk \
        locked.dsk long.dsk
    step 0 "==> --marks <==
$by_marks" '1 image: 1 sound' listings --marks -- --marks
    step 0 "==> --marks <==
$listing" '1 image: 1 sound' listings -- --marks
}

# By the second edition the lines are those of the root.
try_listings_by_directories() {
    step 1 '==> directories.dsk <==
REFUSED 6' '1 image: 0 sound, 1 of number 6' listings directories.dsk
    step 1 "==> directories.dsk <==
$by_directories

==> sound.dsk <==
$listing

==> no-name.dsk <==
REFUSED 3

==> marked-directories.dsk <==
REFUSED 4" '4 images: 2 sound, 1 of number 3, 1 of number 4' listings --directories directories.dsk sound.dsk \
        no-name.dsk marked-directories.dsk
    step 0 "==> marked-directories.dsk <==
$(sed '2,$s/$/ -/' <<<"$by_directories")

==> marked.dsk <==
$marked" '2 images: 2 sound' listings --marks --directories marked-directories.dsk marked.dsk
    step 0 "==> --directories <==
$by_directories" '1 image: 1 sound' listings --directories -- --directories
}

try_catalogue() {
    step 0 "$listing" '' catalogue sound.dsk
    step 0 "$listing" '' catalogue <sound.dsk
    step 1 'REFUSED 6' '' catalogue map.dsk
    step 1 'REFUSED 1' '' catalogue long.dsk
    step 2 '' 'run: cannot read missing.dsk' catalogue missing.dsk
    step 2 '' 'run: cannot read .' catalogue .
    step 2 '' 'standard input: Is a directory' catalogue <.
    # A sound disk may have the word as its name.
    { printf 'REFUSED   ' && tail -c +11 sound.dsk; } >named.dsk
    step 0 "REFUSED${listing#SHELF}" '' catalogue named.dsk
    step 1 'REFUSED 4' '' catalogue marked.dsk
    step 1 'REFUSED 4' '' catalogue <locked.dsk
    # Both catalogue programs go by the first edition.
    step 1 'REFUSED 6' '' catalogue directories.dsk
    step 1 'REFUSED 6' '' catalogue_marks directories.dsk
    step 1 'REFUSED 6' '' catalogue_marks <marked-directories.dsk
}

# The second catalogue program, which goes by the new rule.
try_catalogue_marks() {
    step 0 "$marked" '' catalogue_marks marked.dsk
    step 0 "$marked" '' catalogue_marks <marked.dsk
    step 0 "$locked" '' catalogue_marks locked.dsk
    step 0 "$by_marks" '' catalogue_marks sound.dsk
    step 1 'REFUSED 6' '' catalogue_marks map.dsk
    step 1 'REFUSED 1' '' catalogue_marks long.dsk
    step 2 '' 'run: cannot read missing.dsk' catalogue_marks missing.dsk
    step 2 '' 'run: cannot read .' catalogue_marks .
    step 2 '' 'standard input: Is a directory' catalogue_marks <.
    step 0 "REFUSED${by_marks#SHELF}" '' catalogue_marks named.dsk
}

# FILE: the bytes as one number, high byte first and a one in front, modulo the largest prime below
# 72,000,000,000,000,000, in sixteen hexadecimal digits.
sum_of() {
    python3 -c 'import sys
prime = 71999999999999857
print("%016x" % (int.from_bytes(b"\1" + open(sys.argv[1], "rb").read(), "big") % prime))' "$1"
}

try_masters() {
    local data=$top/crates/masters/data sum other
    step 2 "0 1 $data/shelf.dsk
- - missing.dsk
0 1 $data/shelf-worn.dsk
6 - map.dsk
0 5 $data/shelf-other.dsk
0 1 $data/shelf-again.dsk
0 5 $data/shelf-other.dsk" "missing.dsk: $missing
7 images: 5 sound, 1 of number 6, 1 unread" masters "$data/shelf.dsk" missing.dsk "$data/shelf-worn.dsk" \
        map.dsk "$data/shelf-other.dsk" "$data/shelf-again.dsk" "$data/shelf-other.dsk"
    if ! command -v python3 >/dev/null; then
        echo "sums of packed forms are not compared: there is no python3"
        return
    fi
    "${emulator[@]}" "$out/example" "$data/shelf.dsk" pack "$work/packed"
    sum=$(sum_of "$work/packed")
    "${emulator[@]}" "$out/example" "$data/shelf-other.dsk" pack "$work/packed"
    other=$(sum_of "$work/packed")
    [ "$sum" != "$other" ] || fail "two disks have one sum"
    step 2 "0 $sum $data/shelf.dsk
0 $other $data/shelf-other.dsk
0 $sum $data/shelf-worn.dsk
- - missing.dsk
6 - map.dsk" "missing.dsk: $missing
5 images: 3 sound, 1 of number 6, 1 unread" masters --sums "$data/shelf.dsk" "$data/shelf-other.dsk" \
        "$data/shelf-worn.dsk" missing.dsk map.dsk
}

# By the new rule a volume with a mark is another one than that without, and the same as its packed form.
try_masters_by_marks() {
    local sum other
    "${emulator[@]}" "$out/example" -m marked.dsk pack packed.dsk
    step 1 '4 - marked.dsk
0 2 sound.dsk
4 - packed.dsk' '3 images: 1 sound, 2 of number 4' masters marked.dsk sound.dsk packed.dsk
    step 1 '0 1 sound.dsk
0 2 marked.dsk
6 - map.dsk
0 4 locked.dsk
0 2 packed.dsk
0 1 sound.dsk' '6 images: 5 sound, 1 of number 6' masters --marks sound.dsk marked.dsk map.dsk locked.dsk \
        packed.dsk sound.dsk
    command -v python3 >/dev/null || return 0
    "${emulator[@]}" "$out/example" sound.dsk pack "$work/packed"
    sum=$(sum_of "$work/packed")
    other=$(sum_of packed.dsk)
    step 1 "4 - marked.dsk
0 $sum sound.dsk" '2 images: 1 sound, 1 of number 4' masters --sums marked.dsk sound.dsk
    step 0 "0 $other marked.dsk
0 $sum sound.dsk" '2 images: 2 sound' masters --sums --marks marked.dsk sound.dsk
    step 0 "0 $other marked.dsk
0 $sum sound.dsk" '2 images: 2 sound' masters --marks --sums marked.dsk sound.dsk
}

# By the second edition a volume with directories is the same as its packed form, and another one than with a
# file's byte changed in a directory: sector 37 has the program of GAMES.
try_masters_by_directories() {
    local sum other
    "${emulator[@]}" "$out/example" -d 0 directories.dsk pack packed-directories.dsk
    cp directories.dsk other-directories.dsk
    put_at other-directories.dsk $((256 * 37)) '?'
    step 1 '6 - directories.dsk
0 2 sound.dsk
6 - packed-directories.dsk' '3 images: 1 sound, 2 of number 6' masters directories.dsk sound.dsk \
        packed-directories.dsk
    step 1 '0 1 directories.dsk
0 2 sound.dsk
0 1 packed-directories.dsk
3 - no-name.dsk
0 5 other-directories.dsk
4 - marked-directories.dsk' '6 images: 4 sound, 1 of number 3, 1 of number 4' masters --directories \
        directories.dsk sound.dsk packed-directories.dsk no-name.dsk other-directories.dsk marked-directories.dsk
    step 0 '0 1 marked-directories.dsk
0 2 directories.dsk
0 2 packed-directories.dsk' '3 images: 3 sound' masters --directories --marks marked-directories.dsk \
        directories.dsk packed-directories.dsk
    command -v python3 >/dev/null || return 0
    sum=$(sum_of packed-directories.dsk)
    "${emulator[@]}" "$out/example" -m -d 0 marked-directories.dsk pack "$work/packed"
    other=$(sum_of "$work/packed")
    step 0 "0 $sum directories.dsk
0 $sum packed-directories.dsk" '2 images: 2 sound' masters --sums --directories directories.dsk \
        packed-directories.dsk
    step 0 "0 $other marked-directories.dsk
0 $sum directories.dsk" '2 images: 2 sound' masters --marks --sums --directories marked-directories.dsk \
        directories.dsk
}

# The table has room for 131,071 images. What comes behind is compared with all that came behind.
try_past_the_table() {
    local words
    gzip -dc "$host/vectors/25-small-3-empty.dsk.gz" >a
    { printf 'B         ' && tail -c +11 a; } >b
    { printf 'C         ' && tail -c +11 a; } >c
    mapfile -t words < <(printf 'a\n%.0s' {1..131071})
    must_be "$("$top/run" masters "${words[@]}" b c b a c 2>"$work/told" | tail -n 6)" '0 1 a
0 131072 b
0 131073 c
0 131072 b
0 1 a
0 131073 c' 'images past the table'
    must_be "$(cat "$work/told")" '131076 images: 131076 sound' 'the count of images past the table'
}

# FILE MODEL...: copies of the models, in a folder that has nothing else. All of it is of an old date, so that
# what is written there later is seen.
lay_copies() {
    rm -rf "$work/mend"
    mkdir "$work/mend"
    cd "$work/mend"
    while [ $# -gt 0 ]; do
        cp "$2" "./$1"
        shift 2
    done
    find . -depth -exec touch -d '2001-02-03 04:05:06' {} +
}

# FILE MODEL...: the folder has these files and nothing else, each with the bytes of its model.
must_hold() {
    local files=$(($# / 2))
    while [ $# -gt 0 ]; do
        cmp "./$1" "$2" >&2 || fail "$1 is not as ${2##*/}"
        shift 2
    done
    must_be "$(find . -mindepth 1 -printf . | wc -c)" "$files" 'files where mend was run'
}

# Inode and time of every file, and of the folder, which a file that comes and goes leaves another time.
file_states() {
    find . -printf '%P %i %m %s %T@\n' | sort
}

# A step of mend that touches no file.
step_aside() {
    local before
    before=$(file_states)
    step "$@"
    must_be "$(file_states)" "$before" "files that are to be left alone: ${*:4}"
}

# Each damaged image becomes the one that it was made from. Then it is sound, and left alone. The page's count is
# the last step's.
try_mend() {
    local empty=$belt_data/25-small-3-empty.dsk mix=$belt_data/17-small-252-mix.dsk
    lay_copies set.dsk "$belt_data/6-set.dsk"
    step 0 '6 set.dsk: mended' '1 image: 1 sound' mend set.dsk
    must_hold set.dsk "$empty"
    step_aside 0 '0 set.dsk: sound' '1 image: 1 sound' mend set.dsk
    must_hold set.dsk "$empty"
    # The second is shorter than the first: what is left of that in memory is not written.
    lay_copies cleared.dsk "$belt_data/6-cleared.dsk" set.dsk "$belt_data/6-set.dsk" \
        order.dsk "$belt_data/4-order.dsk"
    step 0 '6 cleared.dsk: mended
6 set.dsk: mended
4 order.dsk: mended
0 set.dsk: sound' '4 images: 4 sound' mend cleared.dsk set.dsk order.dsk set.dsk
    must_hold cleared.dsk "$mix" set.dsk "$empty" order.dsk "$mix"
    step_aside 0 '0 order.dsk: sound
0 cleared.dsk: sound' '2 images: 2 sound' mend order.dsk cleared.dsk
    must_hold cleared.dsk "$mix" set.dsk "$empty" order.dsk "$mix"
    lay_copies two.dsk "$belt_data/5-two-files.dsk"
    step_aside 1 '5 two.dsk: not mended' '1 image: 0 sound, 1 of number 5' mend two.dsk
    must_hold two.dsk "$belt_data/5-two-files.dsk"
    lay_copies map.dsk "$work/images/order-map.dsk" holders.dsk "$work/images/order-holders.dsk"
    step 0 '4 map.dsk: mended' '1 image: 1 sound' mend map.dsk
    step_aside 1 '4 holders.dsk: not mended' '1 image: 0 sound, 1 of number 4' mend holders.dsk
    must_hold map.dsk "$mix" holders.dsk "$work/images/order-holders.dsk"
    lay_copies set.dsk "$belt_data/6-set.dsk" two.dsk "$belt_data/5-two-files.dsk" mix.dsk "$mix"
    step 1 '6 set.dsk: mended
5 two.dsk: not mended
0 mix.dsk: sound' '3 images: 2 sound, 1 of number 5' mend set.dsk two.dsk mix.dsk
    must_hold set.dsk "$empty" two.dsk "$belt_data/5-two-files.dsk" mix.dsk "$mix"
    cd "$work/images"
}

# A mark is number 4 by the old rule, which is never mended, and stays by the new one. By the first edition the
# map is made of what the root holds, and by the second it is the directories' again.
try_mend_by_layouts() {
    local images=$work/images
    lay_copies map.dsk "$images/marked-map.dsk" --marks "$images/sound.dsk"
    step_aside 1 '4 map.dsk: not mended
0 --marks: sound' '2 images: 1 sound, 1 of number 4' mend map.dsk --marks
    must_hold map.dsk "$images/marked-map.dsk" --marks "$images/sound.dsk"
    step 0 '6 map.dsk: mended' '1 image: 1 sound' mend --marks map.dsk
    must_hold map.dsk "$images/marked.dsk" --marks "$images/sound.dsk"
    lay_copies games.dsk "$images/games-order.dsk"
    step 0 '4 games.dsk: mended' '1 image: 1 sound' mend --directories games.dsk
    must_hold games.dsk "$images/games.dsk"
    step_aside 0 '0 games.dsk: sound' '1 image: 1 sound' mend --directories games.dsk
    step 0 '6 games.dsk: mended' '1 image: 1 sound' mend games.dsk
    must_hold games.dsk "$images/games-root.dsk"
    step 0 '6 games.dsk: mended' '1 image: 1 sound' mend --directories games.dsk
    must_hold games.dsk "$images/games.dsk"
    step 0 '6 games.dsk: mended' '1 image: 1 sound' mend --marks games.dsk
    must_hold games.dsk "$images/games-root.dsk"
    lay_copies map.dsk "$images/marked-directories-map.dsk"
    step_aside 1 '4 map.dsk: not mended' '1 image: 0 sound, 1 of number 4' mend --directories map.dsk
    must_hold map.dsk "$images/marked-directories-map.dsk"
    step 0 '6 map.dsk: mended' '1 image: 1 sound' mend --directories --marks map.dsk
    must_hold map.dsk "$images/marked-directories.dsk"
    step_aside 0 '0 map.dsk: sound' '1 image: 1 sound' mend --marks --directories map.dsk
    cd "$images"
}

# What cannot be read or written has its reason, and the images after it are mended. Neither an image nor what
# stands where the file beside it would is touched then.
try_mend_failing() {
    local set=$belt_data/6-set.dsk empty=$belt_data/25-small-3-empty.dsk order=$belt_data/4-order.dsk
    lay_copies set.dsk "$set"
    step_aside 2 '- missing.dsk: not read
- .: not read' "missing.dsk: $missing
.: Is a directory
2 images: 0 sound, 2 unread" mend missing.dsk .
    must_hold set.dsk "$set"
    lay_copies b.dsk "$set" b.dsk.mending "$order" c.dsk "$set"
    step_aside 2 '6 b.dsk: not written' 'b.dsk.mending: File exists
1 image: 0 sound, 1 unread' mend b.dsk
    must_hold b.dsk "$set" b.dsk.mending "$order" c.dsk "$set"
    step 2 '- missing.dsk: not read
6 b.dsk: not written
6 c.dsk: mended' "missing.dsk: $missing
b.dsk.mending: File exists
3 images: 1 sound, 2 unread" mend missing.dsk b.dsk c.dsk
    must_hold b.dsk "$set" b.dsk.mending "$order" c.dsk "$empty"
    # A link that leads nowhere has the name too, and no file comes to be where it leads.
    lay_copies b.dsk "$set"
    ln -s nowhere b.dsk.mending
    step_aside 2 '6 b.dsk: not written' 'b.dsk.mending: File exists
1 image: 0 sound, 1 unread' mend b.dsk
    rm b.dsk.mending
    must_hold b.dsk "$set"
    try_mend_too_large
    try_mend_too_long
    try_mend_links
    cd "$work/images"
}

# Of the file beside the image 8,192 bytes can be written, and no more. The image's inode and time stay.
try_mend_too_large() {
    local order=$belt_data/4-order.dsk state
    lay_copies a.dsk "$order"
    state=$(stat -c '%i %y' a.dsk)
    (
        trap '' XFSZ
        ulimit -f 8
        step 2 '4 a.dsk: not written' 'a.dsk.mending: File too large
1 image: 0 sound, 1 unread' mend a.dsk
    )
    steps=$((steps + 1))
    must_be "$(stat -c '%i %y' a.dsk)" "$state" 'an image that could not be written'
    must_hold a.dsk "$order"
}

# A path may have 4,095 bytes, which is that of the file beside the first image. The second is two bytes longer.
try_mend_too_long() {
    local set=$belt_data/6-set.dsk path
    path=$(printf './%.0s' {1..2041})a.dsk
    lay_copies a.dsk "$set"
    step_aside 2 "6 ./$path: not written" "./$path.mending: File name too long
1 image: 0 sound, 1 unread" mend "./$path"
    must_hold a.dsk "$set"
    step 0 "6 $path: mended" '1 image: 1 sound' mend "$path"
    must_hold a.dsk "$belt_data/25-small-3-empty.dsk"
}

# The mended image is a new file, of the caller's mode. So another name of the image's file still leads to the
# image as it was, and a link is replaced.
try_mend_links() {
    local set=$belt_data/6-set.dsk empty=$belt_data/25-small-3-empty.dsk
    lay_copies a.dsk "$set"
    chmod 600 a.dsk
    ln a.dsk other.dsk
    ln -s other.dsk link.dsk
    (
        umask 027
        step 0 '6 a.dsk: mended
6 link.dsk: mended' '2 images: 2 sound' mend a.dsk link.dsk
    )
    steps=$((steps + 1))
    must_hold a.dsk "$empty" other.dsk "$set" link.dsk "$empty"
    must_be "$(stat -c '%a' a.dsk link.dsk other.dsk | tr '\n' ' ')" '640 640 600 ' 'modes of mended images'
}

# Makes $work/faults.so of faults.c: loaded before a program, it does to mend what that does to the example host.
compile_faults() {
    cat >"$work/calls.c" <<'END'
#define _GNU_SOURCE
#include <errno.h>
#include <stdlib.h>
#include <string.h>
#include <sys/syscall.h>
#include <unistd.h>

static char *fault_of_mend(const char *name) {
    return strcmp(program_invocation_short_name, "mend") == 0 ? getenv(name) : NULL;
}

#define getenv fault_of_mend
#define __wrap_write write
#define __wrap_fsync fsync
#define __wrap_close close
#define __wrap_rename rename
#define __real_pwrite pwrite
#define __real_fchmod fchmod
#include "faults.c"

ssize_t __real_write(int file, const void *bytes, size_t length) {
    return syscall(SYS_write, file, bytes, length);
}

int __real_fsync(int file) {
    return syscall(SYS_fsync, file);
}

int __real_close(int file) {
    return syscall(SYS_close, file);
}

int __real_rename(const char *from, const char *to) {
    return syscall(SYS_rename, from, to);
}
END
    "${compiler[@]}" -std=c11 -O2 -Wall -Wextra -Werror -pedantic -shared -fPIC -I"$host" "$work/calls.c" \
        -o "$work/faults.so"
}

# FAULT STATUS OUTPUT ERRORS: a step of mend on a.dsk with this fault.
faulty_step() {
    LD_PRELOAD=$work/faults.so FAULT=$1 step "${@:2}" mend a.dsk
}

# Calls to the system that fail while an image is mended, by their place among the calls of that name: the first
# close is that of the image, once it is read. The image stays and the new file goes. Where mend is ended before
# one of them the new file is left, and stands in the way until it is removed.
try_mend_faults() {
    local order=$belt_data/4-order.dsk mix=$belt_data/17-small-252-mix.dsk fault reason
    if [ ${#emulator[@]} -gt 0 ]; then
        echo "failing calls of mend are not tried: it is emulated here"
        return
    fi
    compile_faults
    while IFS=: read -r fault reason; do
        lay_copies a.dsk "$order"
        faulty_step "$fault" 2 '4 a.dsk: not written' "$reason
1 image: 0 sound, 1 unread"
        must_hold a.dsk "$order"
    done <<'END'
write 1 28:a.dsk.mending: No space left on device
fsync 1 122:a.dsk.mending: Disk quota exceeded
rename 1 16:a.dsk: Device or resource busy
END
    # A file is closed without a word of how that went; by then its bytes have reached the device.
    lay_copies a.dsk "$order"
    faulty_step 'close 2 5' 0 '4 a.dsk: mended' '1 image: 1 sound'
    must_hold a.dsk "$mix"
    for fault in 'write 1 end' 'fsync 1 end' 'close 2 end' 'rename 1 end'; do
        lay_copies a.dsk "$order"
        faulty_step "$fault" 2 '' ''
        cp a.dsk.mending "$work/left"
        step_aside 2 '4 a.dsk: not written' 'a.dsk.mending: File exists
1 image: 0 sound, 1 unread' mend a.dsk
        must_hold a.dsk "$order" a.dsk.mending "$work/left"
    done
    must_hold a.dsk "$order" a.dsk.mending "$mix"
    rm a.dsk.mending
    faulty_step 'write 1 short' 0 '4 a.dsk: mended' '1 image: 1 sound'
    must_hold a.dsk "$mix"
    cd "$work/images"
}

# A newline is shown as another byte, and the file of the shown name is not meant. With no image, or with an
# option of another program, the usage comes and nothing is done.
try_mend_words() {
    local set=$belt_data/6-set.dsk empty=$belt_data/25-small-3-empty.dsk usage
    lay_copies $'two\nlines.dsk' "$set" 'two?lines.dsk' "$set"
    step 0 '6 two?lines.dsk: mended' '1 image: 1 sound' mend $'two\nlines.dsk'
    must_hold $'two\nlines.dsk' "$empty" 'two?lines.dsk' "$set"
    lay_copies $'two\nlines.dsk' "$set" $'two\nlines.dsk.mending' "$empty"
    step_aside 2 '6 two?lines.dsk: not written' 'two?lines.dsk.mending: File exists
1 image: 0 sound, 1 unread' mend $'two\nlines.dsk'
    must_hold $'two\nlines.dsk' "$set" $'two\nlines.dsk.mending' "$empty"
    lay_copies -h "$set" -v "$set"
    usage=$("$top/run" mend -h)
    must_be "${usage%%$'\n'*}" 'usage: mend [--marks] [--directories] [--] IMAGE...' 'mend -h'
    step_aside 2 '' "$usage" mend
    step_aside 2 '' "$usage" mend <./-h
    step_aside 2 '' "$usage" mend --marks --directories --
    step_aside 2 '' "$usage" mend -v ./-h
    step_aside 2 '' "$usage" mend --sums ./-h
    step_aside 0 "$usage" '' mend -h
    step_aside 0 "$usage" '' mend -h ./-v
    must_hold -h "$set" -v "$set"
    step 0 '6 -h: mended' '1 image: 1 sound' mend -- -h
    must_hold -h "$empty" -v "$set"
    cd "$work/images"
}

# The run ends with the first line that cannot be written, behind what was done for that line.
try_mend_full() {
    local set=$belt_data/6-set.dsk ended=0
    lay_copies a.dsk "$set" b.dsk "$set"
    "$top/run" mend a.dsk b.dsk >/dev/full 2>"$work/told" || ended=$?
    must_be "$ended" 2 'status of mend on a full output'
    must_be "$(cat "$work/told")" 'standard output: No space left on device' 'mend on a full output'
    must_hold a.dsk "$belt_data/25-small-3-empty.dsk" b.dsk "$set"
    cd "$work/images"
}

# Every program has its usage, on standard output where it is asked for, and on standard error where its
# words are not those.
try_usage() {
    local program usage option
    for program in belt 'belt [-v] [--marks] [--directories] [--] [IMAGE...]' \
        listings 'listings [--marks] [--directories] [--] IMAGE...' \
        masters 'masters [--sums] [--marks] [--directories] [--] IMAGE...' \
        mend 'mend [--marks] [--directories] [--] IMAGE...' catalogue 'catalogue < IMAGE' \
        catalogue_marks 'catalogue_marks < IMAGE' bench bench; do
        if [ -z "${usage:-}" ]; then
            usage=$program
            continue
        fi
        must_be "$("$top/run" "$usage" -h 2>&1 | head -n 1)" "usage: $program" "$usage -h"
        "$top/run" "$usage" --help >"$work/usage" 2>"$work/told" || fail "$usage --help gives a status"
        step 0 "$(cat "$work/usage")" '' "$usage" -h
        step 2 '' "$(cat "$work/usage")" "$usage" --other
        grep -q -- '-h, --help' "$work/usage" || fail "$usage --help does not tell its options"
        for option in --marks --directories; do
            [[ $program == *"$option"* ]] || continue
            [ "$(grep -c -- "$option" "$work/usage")" -gt 1 ] || fail "$usage --help does not tell of $option"
        done
        usage=
    done
    step 2 '' "$("$top/run" masters -h)" masters -v sound.dsk
    step 2 '' "$("$top/run" belt -h)" belt --sums sound.dsk
    step 2 '' "$("$top/run" listings -h)" listings --marks --sums sound.dsk
    step 2 '' "$("$top/run" catalogue -h)" catalogue --marks
    step 2 '' "$("$top/run" catalogue -h)" catalogue --directories
    step 2 '' "$("$top/run" catalogue_marks -h)" catalogue_marks --directories
    step 2 '' "$("$top/run" --help)" no_such_program
}

# Output that is full or closed is told, and is no 0.
try_outputs() {
    local program ended
    for program in 'belt sound.dsk' 'belt -h' 'listings sound.dsk' 'masters sound.dsk' 'catalogue sound.dsk' \
        'belt --marks marked.dsk' 'listings --marks marked.dsk' 'masters --marks marked.dsk' \
        'belt --directories directories.dsk' 'listings --directories directories.dsk' \
        'masters --directories directories.dsk' 'mend sound.dsk' 'catalogue_marks marked.dsk' bench; do
        ended=0
        # shellcheck disable=SC2086
        "$top/run" $program >/dev/full 2>"$work/told" || ended=$?
        must_be "$ended" 2 "status on a full output: $program"
        grep -q 'standard output' "$work/told" || fail "a full output is not told: $program"
        ended=0
        # shellcheck disable=SC2086
        "$top/run" $program >&- 2>"$work/told" || ended=$?
        must_be "$ended" 2 "status on a closed output: $program"
        must_be "$(cat "$work/told")" 'run: standard output is closed' "closed output: $program"
    done
    step 0 "$(cat "$top/crates/bench/stdout")" '' bench
    # One that the system ends, here for want of stack, has told nothing, and that is no 0 either.
    if [ ${#emulator[@]} -eq 0 ]; then
        ended=0
        (ulimit -s 2048 && "$top/run" masters sound.dsk) >/dev/null 2>&1 || ended=$?
        must_be "$ended" 2 "status of a program that is killed"
    fi
}

# The commands of the README over a shelf: on all cores, by parallel, and duplicates across machines.
try_shelf_commands() {
    local belt=("${emulator[@]}" "$top/target/bin/belt") masters=("${emulator[@]}" "$top/target/bin/masters")
    local expected
    mkdir -p first second
    cp sound.dsk first/a.dsk
    cp map.dsk first/b.dsk
    cp "$top/crates/masters/data/shelf-worn.dsk" second/c.dsk
    cp "$top/crates/masters/data/shelf-other.dsk" second/d.dsk
    : >second/e.dsk
    expected='1 second/e.dsk
6 first/b.dsk'
    must_be "$(find first second -name '*.dsk' -print0 | xargs -0 -n 2 -P 2 "${belt[@]}" 2>"$work/told" |
        grep -v '^0 ' | sort)" "$expected" 'a shelf by find and xargs'
    must_be "$(awk '{ images += $1; sound += $3 } END { print NR, images, sound }' "$work/told")" '3 5 3' \
        'the counts of three belts, added up'
    if [ ${#emulator[@]} -eq 0 ] && need_parallel; then
        must_be "$(find first second -name '*.dsk' -print0 |
            parallel -0 -n 2 -S 2/: --workdir . "${belt[@]}" 2>/dev/null | grep -v '^0 ' | sort)" \
            "$expected" 'a shelf by parallel'
    else
        echo "a shelf by parallel is not tried: there is no GNU parallel here"
    fi
    # Each machine has a folder of its own; equal sums in the joined lines are the duplicates.
    must_be "$({ "${masters[@]}" --sums first/*.dsk && "${masters[@]}" --sums second/*.dsk; } 2>/dev/null |
        grep '^0 ' | sort -k 2,2 -k 3 | uniq -f 1 -w 17 -D | cut -d ' ' -f 3)" 'first/a.dsk
second/c.dsk' 'duplicates across machines'
}

need_parallel() {
    command -v parallel >/dev/null || install parallel >/dev/null 2>&1 || return 1
    parallel --version 2>/dev/null | grep -q '^GNU parallel'
}

# COUNT SECTORS: so many images in $work/shelf; the tenth of each ten is the fifth again, laid out otherwise.
make_shelf() {
    "${compiler[@]}" -std=c11 -O2 -Wall -Wextra -Werror -pedantic -I"$top/include" "$host/shelf.c" "$archive" \
        -o "$out/shelf"
    rm -rf "$work/shelf"
    mkdir -p "$work/shelf"
    (cd "$work/shelf" && "${emulator[@]}" "$out/shelf" "$1" "$2")
}

# COUNT: the first so many of them, by masters, which must find each of the pairs and no other.
find_pairs() {
    (cd "$work/shelf" && seq -f '%06.0f.dsk' 1 "$1" |
        xargs -x -n "$1" "${one_core[@]}" "${emulator[@]}" "$top/target/bin/masters" 2>"$work/told" >"$work/written")
    must_be "$(cat "$work/told")" "$1 images: $1 sound" "the count of $1 images"
    awk '{ place = NR % 10 ? NR : NR - 5; if ($1 != 0 || $2 != place) wrong++ } END { exit wrong > 0 }' \
        "$work/written" || fail "masters finds other pairs among $1 images"
    steps=$((steps + 1))
}

# Seconds on one core, for a quarter, a half and all of 5,000 images: the limit is a minute.
measure_shelf() {
    local images began ended one_core=()
    ! command -v taskset >/dev/null || one_core=(taskset -c 0)
    make_shelf 5000 360
    echo "masters, images of 360 sectors"
    for images in 1250 2500 5000; do
        began=$(date +%s%N)
        find_pairs "$images"
        ended=$(date +%s%N)
        printf '%7d images %6d ms\n' "$images" $(((ended - began) / 1000000))
    done
    rm -rf "$work/shelf"
    [ $((ended - began)) -lt 60000000000 ] || fail "5,000 images take more than a minute"
}

# Each program is proved before the first step, which says so.
prove_programs() {
    local program
    for program in "$top"/crates/*/src/main.rt; do
        program=${program%/src/main.rt}
        "$top/run" "${program##*/}" -h >/dev/null
    done
}

prepare_c
find_archive
prove_programs
rm -rf "$work"
mkdir -p "$work"
if [ "${1:-}" = shelf ]; then
    measure_shelf
    exit
fi
compile_example
lay_out
try_belt
try_belt_by_marks
try_belt_by_directories
try_names
try_listings
try_listings_by_marks
try_listings_by_directories
try_catalogue
try_catalogue_marks
try_masters
try_masters_by_marks
try_masters_by_directories
try_past_the_table
try_mend
try_mend_by_layouts
try_mend_failing
try_mend_faults
try_mend_words
try_mend_full
try_usage
try_outputs
try_shelf_commands
one_core=()
make_shelf 300 90
find_pairs 300
echo "the programs: $steps steps as expected"
