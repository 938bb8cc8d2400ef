#!/usr/bin/env bash
# Tries the built program over real files and streams, outside the gate: tests/real.sh PROGRAM
# Each line of the result names what was tried, or what this system doesn't let it try; the last line counts what
# failed, and the status is 0 where nothing did.
set -u
[ $# -eq 1 ] && [ -x "$1" ] || { echo 'tests/real.sh PROGRAM: the built program' >&2; exit 2; }
program=$(readlink -f "$1")
sample=$(CDPATH='' cd "$(dirname "$0")/.." && pwd)/sample
room=$(mktemp -d) && cd "$room" || exit 2
trap 'chmod -R u+w "$room"; rm -rf "$room"' EXIT
cp "$sample"/hills.* .
tried=0 failed=0

# judge WHAT CAME STATUS ERROR-LINE: the status that came, and the first line on the error stream
judge() {
    tried=$((tried + 1))
    if [ "$2" -eq "$3" ] && [ "$(head -n 1 err.txt)" = "$4" ]; then
        echo "as it is to be: $1"
    else
        failed=$((failed + 1))
        echo "FAILED: $1: status $2, $(head -n 1 err.txt)"
    fi
}

# expect WHAT STATUS ERROR-LINE WORDS..: the status and the first line on the error stream
expect() {
    what=$1 status=$2 line=$3
    shift 3
    timeout 20 "$program" "$@" >out.txt 2>err.txt </dev/null
    judge "$what" $? "$status" "$line"
}

# holds WHAT COMMAND..
holds() {
    what=$1
    shift
    tried=$((tried + 1))
    if "$@"; then echo "as it is to be: $what"; else failed=$((failed + 1)) && echo "FAILED: $what"; fi
}

untried() { echo "not tried here: $1"; }

# shows MOSAIC OUTPUT: whether a mosaic has the pixels of the sample
shows() { "$program" gdal_translate -q "$1" "$2" && cmp -s hills.bil "$2"; }

temporaries() { find . -name '.jirovamby.*' | wc -l; }

# moments MICROSECONDS SECONDS..: some odd moments, in seconds, and twenty by chance within so many microseconds
moments() {
    longest=$1
    shift
    echo "$@"
    for _ in $(seq 20); do
        at=$(((RANDOM * 32768 + RANDOM) % longest))
        printf '%d.%06d ' $((at / 1000000)) $((at % 1000000))
    done
}

# killed SECONDS WORDS..: a run that is killed so long behind its start
killed() {
    bash -c 'timeout -s KILL "$@"; true' - "$1" "$program" "${@:2}" >/dev/null 2>&1
}

now() { echo $(($(date +%s%N) / 1000)); }

# leaves_one COUNT MICROSECONDS COMMAND..: whether more temporary files than so many are there. If not, the command,
# which kills a run that takes so long, is given shorter and shorter times, a hundred at most, until one is left
leaves_one() {
    before=$1 takes=$2
    shift 2
    for percent in $(seq 99 -1 1); do
        [ "$(temporaries)" -gt "$before" ] && return 0
        "$@" "$((takes * percent / 100 / 1000000)).$(printf '%06d' $((takes * percent / 100 % 1000000)))"
    done
    [ "$(temporaries)" -gt "$before" ]
}

# what is told where a call on a file, on the output stream or on the input fails
no_call='ERROR 3: a file call failed'
no_output='ERROR 3: writing the output failed'
no_input='ERROR 3: reading the input failed'

expect 'a command line that is no UTF-8' 1 "ERROR 1: word 0 doesn't fit" gdalinfo $'\xff\xfe'
expect 'a translation' 0 '' gdal_translate hills.bil copy.bil
holds 'the copy has the same bytes' cmp -s hills.bil copy.bil
expect 'a name with blanks, a quote and a line feed' 0 '' gdal_translate -q hills.bil $'a b"\n.bil'
holds 'which is written' cmp -s hills.bil $'a b"\n.bil'
expect 'a name with a line feed that is not there' 1 'ERROR 4: no' gdalinfo $'no\nfile.bil'
holds 'which is told as it stands' test "$(cat err.txt)" = $'ERROR 4: no\nfile.bil: no such file'
signs=$'q\'"&<>;\\.bil'
expect 'a name with quotes and signs' 0 '' gdal_translate -q hills.bil "$signs"
expect 'a mosaic of it' 0 '' gdalbuildvrt -q signs.vrt "$signs"
holds 'in which it is found again' shows signs.vrt found.bil
expect 'the source as its own output' 1 'ERROR 1: hills.bil: output is an input' gdal_translate -q hills.bil ./hills.bil
expect 'a header of the source as output' 1 'ERROR 1: hills.hdr: output is an input' \
    gdal_translate -q hills.bil hills.bip

printf 'old' >old.bil
printf 'old' >old.hdr
expect 'an output in the place of other files' 0 '' gdal_translate -q hills.bil old.bil
holds 'which are whole and new' cmp -s hills.bil old.bil

mkfifo pipe.bil
expect 'a pipe in the place of the output' 2 "$no_call" gdal_translate -q hills.bil pipe.bil
holds 'which is a pipe still' test -p pipe.bil
expect 'a pipe in the place of the source' 2 "$no_call" gdalinfo pipe.bil
expect 'a pipe in the place of an input' 2 "$no_call" gdalbuildvrt -q none.vrt hills.bil pipe.bil
expect 'a pipe in the place of the list' 2 "$no_call" gdalbuildvrt -q none.vrt -input_file_list pipe.bil
cp hills.bil piped.bil && mkfifo piped.hdr
expect 'a pipe in the place of the header' 2 "$no_call" gdalinfo piped.bil
rm piped.hdr && mkdir piped.hdr
expect 'a folder in the place of the header' 2 "$no_call" gdalinfo piped.bil
rmdir piped.hdr && ln -s /dev/null piped.hdr
expect 'a device in the place of the header' 2 "$no_call" gdalinfo piped.bil
mkdir folder.asc folder.bil
expect 'a folder in the place of the source' 2 "$no_call" gdalinfo folder.bil
expect 'a folder in the place of a grid' 2 "$no_call" gdalinfo folder.asc
expect 'a folder in the place of the output' 2 "$no_call" gdal_translate -q -b 1 hills.bil folder.asc
expect 'a folder that is not there' 2 "$no_call" gdal_translate -q hills.bil none/out.bil
ln -s pipe.bil to_a_pipe.bil && ln -s folder.bil to_a_folder.bil
expect 'a link to a pipe in the place of the source' 2 "$no_call" gdalinfo to_a_pipe.bil
expect 'a link to a folder in the place of the output' 2 "$no_call" gdal_translate -q hills.bil to_a_folder.bil
holds 'which is that link still, to an empty folder' test "$(readlink to_a_folder.bil)$(ls -A folder.bil)" = folder.bil
mkfifo on_pipe.hdr && ln -s /dev/null on_device.hdr && mkdir on_folder.hdr
whole_or_none() { [ ! -e "$1" ] || cmp -s hills.bil "$1"; }
for kind in pipe device folder; do
    expect "a $kind in the place of the header of the output" 2 "$no_call" gdal_translate -q hills.bil "on_$kind.bil"
    holds 'beside which the data are whole, or not there' whole_or_none "on_$kind.bil"
done
holds 'the pipe is one still' test -p on_pipe.hdr
holds 'the device, too' test -c on_device.hdr
holds 'and the folder, an empty one' test -z "$(ls -A on_folder.hdr)"

tried=$((tried + 1))
if [ -w /dev/full ]; then
    "$program" gdal_translate hills.bil full.bil >/dev/full 2>err.txt
    came=$?
    if [ "$came" -eq 2 ] && [ "$(cat err.txt)" = 'ERROR 3: writing the output failed' ] && [ ! -e full.bil ]; then
        echo 'as it is to be: an output stream that takes nothing'
    else
        failed=$((failed + 1)) && echo "FAILED: an output stream that takes nothing: status $came"
    fi
else
    untried 'an output stream that takes nothing'
fi

# streams WHAT STATUS ERROR-LINE REDIRECTION WORDS..: with streams that are closed from the start
streams() {
    what=$1 status=$2 line=$3 how=$4
    shift 4
    rm -f err.txt
    bash -c "\"\$@\" $how" bash timeout 20 "$program" "$@"
    judge "$what" $? "$status" "$line"
}
streams 'an output stream that is closed' 2 "$no_output" '2>err.txt >&-' gdal_translate hills.bil closed.bil
holds 'without which nothing is made' test ! -e closed.bil
streams 'an input that is closed' 2 "$no_input" '2>err.txt >out.txt <&-' gdallocationinfo -valonly hills.bil
streams 'a folder in the place of the input' 2 "$no_input" '2>err.txt >out.txt <.' gdallocationinfo -valonly hills.bil
streams 'an error stream that is closed' 1 '' '>err.txt 2>&-' gdalinfo none.bil
streams 'a report whose input is closed' 0 '' '2>err.txt >out.txt <&-' gdalinfo hills.bil
reports_same() { "$program" gdalinfo hills.bil | cmp -s - out.txt; }
holds 'which is whole' reports_same

# killed at odd moments: each name holds its old bytes or its new ones
head -c 8000000 /dev/zero | tr '\0' 'x' >big.bil
printf 'NROWS 2000\nNCOLS 4000\nNBANDS 1\nNBITS 8\nLAYOUT BIL\n' >big.hdr
begin=$(now)
expect 'a translation of 8 MB' 0 '' gdal_translate -q big.bil whole.bil
took=$(($(now) - begin)) before=$(temporaries) whole=yes
kill_raster() {
    printf 'old' >killed.bil
    printf 'old' >killed.hdr
    killed "$1" gdal_translate -q big.bil killed.bil
    [ "$(head -c 4 killed.bil)" = old ] || cmp -s big.bil killed.bil || whole=no
    [ "$(head -c 4 killed.hdr)" = old ] || cmp -s whole.hdr killed.hdr || whole=no
    [ "$(head -c 4 killed.hdr)" = old ] || cmp -s big.bil killed.bil || whole=no
}
for delay in $(moments "$took" 0.001 0.003 0.005 0.01 0.02 0.03 0.05 0.08); do kill_raster "$delay"; done
holds 'one of the killed runs left a temporary file' leaves_one "$before" "$took" kill_raster
holds 'killed at odd moments, each name holds old bytes or new ones, the header no new ones alone' test "$whole" = yes
left=$(temporaries)
expect 'the next translation to that name, beside what the killed ones left' 0 '' gdal_translate -q big.bil killed.bil
holds 'which is whole' cmp -s big.bil killed.bil
holds 'and leaves no temporary file of its own' test "$(temporaries)" = "$left"

# mosaics
expect 'a mosaic' 0 '' gdalbuildvrt -q mosaic.vrt hills.bil
holds 'the mosaic has the pixels of its input' shows mosaic.vrt back.bil
expect 'a mosaic over its input' 1 'ERROR 1: mosaic.vrt: output is an input' gdalbuildvrt -q ./mosaic.vrt mosaic.vrt
expect 'a mosaic over the source of its input, by a document' 0 '' gdal_translate -q mosaic.vrt outer.vrt
expect 'which is an input' 1 'ERROR 1: mosaic.vrt: output is an input' gdalbuildvrt -q mosaic.vrt outer.vrt
for kind in bil hdr; do cp "hills.$kind" "two words.$kind" && cp "hills.$kind" $'two\nlines.'"$kind"; done
printf 'two words.bil\r\n\r\n./hills.bil' >list.txt
expect 'a list with a name of two words' 0 '' gdalbuildvrt -q listed.vrt -input_file_list list.txt
holds 'both of which are sources of both bands' test "$(grep -c -e '>two words.bil<' -e '>hills.bil<' listed.vrt)" = 4
printf 'two\nlines.bil\n' >lines.txt
expect 'a list that cannot hold a name of two lines' 1 'ERROR 4: two: not recognized as a supported format' \
    gdalbuildvrt -q lines.vrt -input_file_list lines.txt
expect 'a name of two lines as a word' 0 '' gdalbuildvrt -q lines.vrt $'two\nlines.bil'
holds 'which is found again' shows lines.vrt again.bil
printf '7' >placeless.bil
printf 'NROWS 1\nNCOLS 1\n' >placeless.hdr
expect 'an input that is skipped' 0 'Warning 1: placeless.bil: skipped (geotransform)' \
    gdalbuildvrt -q skipped.vrt hills.bil placeless.bil
expect 'the same, strictly' 1 'ERROR 1: placeless.bil: skipped (geotransform)' \
    gdalbuildvrt -q -strict strict.vrt hills.bil placeless.bil
holds 'which makes nothing' test ! -e strict.vrt
(echo hills.bil && head -c 67108854 /dev/zero | tr '\0' '\n') >longest.txt
expect 'a list of the greatest length' 0 '' gdalbuildvrt -q longest.vrt -input_file_list longest.txt
echo >>longest.txt
expect 'a list that is longer' 1 'ERROR 6: limit of list passed (67108865)' \
    gdalbuildvrt -q longer.vrt -input_file_list longest.txt
rm longest.txt
for number in $(seq 65536); do echo hills.bil; done >most.txt
expect 'as many inputs as there may be' 0 '' gdalbuildvrt -q -b 1 most.vrt -input_file_list most.txt
expect 'one more' 1 'ERROR 6: limit of files passed (65537)' \
    gdalbuildvrt -q -b 1 more.vrt hills.bil -input_file_list most.txt
# as many files as a walk may meet, the mosaic among them, and one more: other names of one grid, through links
mkdir crowd && echo 'ncols 1 nrows 1 xllcorner 0 yllcorner 0 cellsize 1 7' >crowd/one.asc
for number in $(seq 0 15); do ln -s . "crowd/$number"; done
crowd() {
    echo "<VRTDataset rasterXSize='1' rasterYSize='1'><VRTRasterBand>"
    printf '<SimpleSource><SourceFilename>crowd/%s/one.asc</SourceFilename></SimpleSource>\n' \
        {0..15}/{0..15}/{0..15}/{0..15} | sed -n "1,$1p"
    echo '</VRTRasterBand></VRTDataset>'
}
crowd 65535 >crowd.vrt
expect 'a mosaic of 65,535 files' 0 '' gdallocationinfo -valonly crowd.vrt 0 0
holds 'whose pixel is shown' test "$(cat out.txt)" = 7
crowd 65536 >crowd.vrt
expect 'one file more' 1 'ERROR 6: limit of files passed (65537)' gdallocationinfo -valonly crowd.vrt 0 0
# as many sources as the mosaics of a walk may have together, and one more: COUNT of the raster, and one of NAME
sources() {
    echo "<VRTDataset rasterXSize='1' rasterYSize='1'><VRTRasterBand>"
    yes '<SimpleSource><SourceFilename>placeless.bil</SourceFilename></SimpleSource>' | head -n "$1"
    echo "<SimpleSource><SourceFilename>$2</SourceFilename></SimpleSource></VRTRasterBand></VRTDataset>"
}
sources 0 placeless.bil >one_source.vrt
sources 1 placeless.bil >two_sources.vrt
sources 262142 one_source.vrt >sources.vrt
expect 'two mosaics of 262,144 sources together' 0 '' gdallocationinfo -valonly sources.vrt 0 0
holds 'whose pixel is shown' test "$(cat out.txt)" = 55
sources 262142 two_sources.vrt >sources.vrt
expect 'one source more' 1 'ERROR 6: limit of sources passed (262145)' gdallocationinfo -valonly sources.vrt 0 0
rm -r crowd crowd.vrt sources.vrt
expect 'a folder in the place of the list' 2 "$no_call" gdalbuildvrt -q none.vrt -input_file_list folder.asc
expect 'a folder that is not there' 2 "$no_call" gdalbuildvrt -q none/out.vrt hills.bil
if [ -w /dev/full ]; then
    unwarned() {
        "$program" gdalbuildvrt -q unwarned.vrt hills.bil placeless.bil 2>/dev/full && cmp -s unwarned.vrt skipped.vrt
    }
    holds 'warnings to a stream that takes nothing' unwarned
fi

# rasters from a number
expect 'rasters from a number' 0 '' synth 45
figures=$'Size: 90 x 90\nValues: 6885\nSum: 4837725\nLeast: 0\nGreatest: 1880'
holds 'whose figures are known' test "$(cat out.txt)" = "$figures"
expect 'rasters of 2,000 x 2,000' 0 '' synth 1000 --blocks 8192
figures=$'Size: 2000 x 2000\nValues: 3400000\nSum: 2498300000\nLeast: 0\nGreatest: 1999'
holds 'whose figures are known too' test "$(cat out.txt)" = "$figures"
expect 'smaller ones in their place' 0 '' synth 45
mv synth_t2.bil kept.bil && mkdir synth_t2.bil
expect 'a folder in the place of one of them' 2 "$no_call" synth 45
rmdir synth_t2.bil
expect 'the same without it, with one block' 0 '' synth --blocks 1 45
holds 'which makes the same files' cmp -s kept.bil synth_t2.bil

# names, devices, streams and folders that don't take what is written
longest=$(printf 'a%.0s' $(seq 251))
expect 'a name of 255 bytes' 0 '' gdal_translate -q hills.bil "$longest.bil"
holds 'which is written' cmp -s hills.bil "$longest.bil"
expect 'a source of that name' 0 '' gdal_translate -q "$longest.bil" short.bil
holds 'which is read' cmp -s hills.bil short.bil
expect 'a name of 255 bytes for a mosaic' 0 '' gdalbuildvrt -q "$longest.vrt" hills.bil
expect 'a name of 256 bytes' 2 "$no_call" gdal_translate -q hills.bil "a$longest.bil"
ln -s /dev/null device.bil
expect 'a device in the place of the output' 2 "$no_call" gdal_translate -q hills.bil device.bil
holds 'which is there still' test -c device.bil
expect 'a device in the place of the source' 2 "$no_call" gdalinfo device.bil
yes '1 1' | head -n 200000 >points.txt
"$program" gdallocationinfo -valonly hills.bil <points.txt 2>err.txt | head -n 1 >out.txt
holds 'an output that is closed behind its first line' test "${PIPESTATUS[0]} $(cat err.txt)" = "2 $no_output"
expect 'a device in the place of the list' 2 "$no_call" gdalbuildvrt -q none.vrt -input_file_list device.bil
mkfifo pipe.vrt && ln -s /dev/null device.vrt && mkdir folder.vrt
expect 'a pipe in the place of a mosaic' 2 "$no_call" gdalbuildvrt -q pipe.vrt hills.bil
holds 'which is a pipe still' test -p pipe.vrt
expect 'a device in the place of a mosaic' 2 "$no_call" gdalbuildvrt -q device.vrt hills.bil
holds 'which is there still' test -c device.vrt
expect 'a folder in the place of a mosaic' 2 "$no_call" gdalbuildvrt -q folder.vrt hills.bil
holds 'which is a folder still, and an empty one' test -z "$(ls -A folder.vrt)"
for kind in pipe device folder; do
    printf '%s\n' hills.bil "$kind.bil" >inputs.txt
    expect "a $kind in the place of an input in the list" 2 "$no_call" \
        gdalbuildvrt -q none.vrt -input_file_list inputs.txt
done
holds 'of which nothing is made' test ! -e none.vrt

# as_other WHAT STATUS ERROR-LINE WORDS..: as expect, run by a user without rights, in a folder of that user's. Who may
# do everything takes another user for it.
other=(env)
[ "$(id -u)" != 0 ] || other=(setpriv --reuid=65534 --regid=65534 --clear-groups)
as_other() {
    what=$1 status=$2 line=$3
    shift 3
    tried=$((tried + 1))
    (cd theirs && "${other[@]}" "$program" "$@" >out.txt 2>err.txt </dev/null)
    came=$?
    if [ "$came" -eq "$status" ] && [ "$(head -n 1 theirs/err.txt)" = "$line" ]; then
        echo "as it is to be: $what"
    else
        failed=$((failed + 1))
        echo "FAILED: $what: status $came, $(head -n 1 theirs/err.txt)"
    fi
}
if chmod 755 "$room" && "${other[@]}" test -x "$program" 2>none.txt; then
    mkdir theirs theirs/closed && cp hills.* theirs && printf 'old' >theirs/kept.bil && printf 'x' >theirs/secret.bil
    printf 'old' >theirs/kept.vrt
    chmod 555 theirs/closed && chmod 444 theirs/kept.bil theirs/kept.vrt && chmod 000 theirs/secret.bil
    touch theirs/out.txt theirs/err.txt
    [ "$(id -u)" != 0 ] || chown 65534 theirs theirs/*.*
    as_other 'a folder that cannot be written' 2 "$no_call" gdal_translate -q hills.bil closed/out.bil
    holds 'in which nothing is made' test -z "$(ls -A theirs/closed)"
    as_other 'a file without rights as source' 2 "$no_call" gdalinfo secret.bil
    as_other 'a mosaic in that folder' 2 "$no_call" gdalbuildvrt -q closed/out.vrt hills.bil
    as_other 'a read-only file in the place of the output' 0 '' gdal_translate -q hills.bil kept.bil
    holds 'which is replaced whole' cmp -s hills.bil theirs/kept.bil
    as_other 'a read-only file in the place of a mosaic' 0 '' gdalbuildvrt -q kept.vrt hills.bil
    holds 'which is replaced, too' grep -q '^<VRTDataset ' theirs/kept.vrt
else
    untried 'folders and files without rights'
fi

# a full disk: old files stand
mkdir small
if mount -t tmpfs -o size=64k tmpfs small 2>none.txt; then
    printf 'old' >small/out.bil
    expect 'a disk that is full' 2 "$no_call" gdal_translate -q big.bil small/out.bil
    holds 'on which the old file stands' test "$(cat small/out.bil)" = old
    holds 'and no other' test "$(ls -A small)" = out.bil
    printf 'old' >small/out.vrt
    expect 'a mosaic on it' 2 "$no_call" gdalbuildvrt -q -b 1 small/out.vrt -input_file_list most.txt
    holds 'where the old document stands' test "$(cat small/out.vrt)" = old
    holds 'and nothing is left' test "$(temporaries)" = "$left"
    expect 'the same disk, and less' 0 '' gdal_translate -q hills.bil small/out.bil
    umount small
else
    untried 'a full disk'
fi

# two runs that write the same name at once: it is whole, and so is its header
(for number in 1 2 3 4 5 6 7 8; do "$program" gdal_translate -q big.bil both.bil & done; wait)
holds 'eight runs that write one name' cmp -s big.bil both.bil
holds 'whose header is whole' cmp -s killed.hdr both.hdr
tr 'x' 'y' <big.bil >other.bil && cp big.hdr other.hdr
(for name in big other big other big other; do "$program" gdal_translate -q "$name.bil" both.bil & done; wait)
holds 'six runs that write two rasters under one name' bash -c 'cmp -s big.bil both.bil || cmp -s other.bil both.bil'
(for name in mosaic listed mosaic listed; do "$program" gdalbuildvrt -q both.vrt "$name.vrt" & done; wait)
"$program" gdalbuildvrt -q one.vrt mosaic.vrt && "$program" gdalbuildvrt -q two.vrt listed.vrt
holds 'four runs that write two mosaics under one name' bash -c 'cmp -s one.vrt both.vrt || cmp -s two.vrt both.vrt'

# changes WHAT STATUS ERROR-LINE OUTPUT COMMAND..: a file that another process changes behind the first point
dataset=changing.bil second='5 1900'
changes() {
    what=$1 status=$2 line=$3 output=$4
    shift 4
    cp big.bil changing.bil && cp big.hdr changing.hdr && rm -f asks && mkfifo asks
    tried=$((tried + 1))
    timeout 20 "$program" gdallocationinfo -valonly "$dataset" <asks >out.txt 2>err.txt &
    exec 3>asks
    echo '0 0' >&3
    for number in $(seq 100); do [ -s out.txt ] && break; sleep 0.05; done
    "$@"
    echo "$second" >&3
    exec 3>&-
    wait $!
    came=$?
    if [ "$came" -eq "$status" ] && [ "$(head -n 1 err.txt)" = "$line" ] && [ "$(cat out.txt)" = "$output" ]; then
        echo "as it is to be: $what"
    else
        failed=$((failed + 1))
        echo "FAILED: $what: status $came, $(head -n 1 err.txt), $(tr '\n' ' ' <out.txt)"
    fi
}
changes 'an open file that shrinks' 2 "$no_call" 120 truncate -s 1000 changing.bil
changes 'an open file that grows' 0 '' $'120\n120' truncate -s 9000000 changing.bil
changes 'an open file that is taken away' 0 '' $'120\n120' rm changing.bil
changes 'an open file whose name another one takes' 0 '' $'120\n120' cp -f --remove-destination other.bil changing.bil

# the same between the walk and the reading: the second point lies in a source that was walked and isn't open
# source_at NAME COLUMN: a source whose first pixel is shown in this column
source_at() {
    place="<DstRect xOff='$2' yOff='0' xSize='1' ySize='1'/>"
    echo "<SimpleSource><SourceFilename>$1</SourceFilename>$place</SimpleSource>"
}
one=$(source_at big.bil 0) two=$(source_at changing.bil 128)
echo "<VRTDataset rasterXSize='256' rasterYSize='1'><VRTRasterBand>$one$two</VRTRasterBand></VRTDataset>" >pair.vrt
dataset=pair.vrt second='128 0'
changes 'a source that stays' 0 '' $'120\n120' true
changed='ERROR 3: changing.bil: length changed from 8000000 to'
changes 'a source that shrinks before it is read' 2 "$changed 7999999" 120 truncate -s 7999999 changing.bil
changes 'a source that grows before it is read' 2 "$changed 8000001" 120 truncate -s 8000001 changing.bil
changes 'a source that is taken away before it is read' 2 "$changed none" 120 rm changing.bil

# documents read by GDAL itself, where it is installed
if [ -x /usr/bin/gdalinfo ]; then
    expect 'a window of a raster as a document' 0 '' gdal_translate -q -of VRT -srcwin 1 2 5 4 hills.bil window.vrt
    expect 'the same as a raster' 0 '' gdal_translate -q -srcwin 1 2 5 4 hills.bil window.bil
    holds 'GDAL reads the document' bash -c '/usr/bin/gdalinfo window.vrt | grep -q "^Size is 5, 4"'
    holds 'GDAL reads the mosaic' bash -c '/usr/bin/gdalinfo mosaic.vrt >gdal.txt && grep -q "^Size is" gdal.txt'
    finds_same() {
        theirs=$(/usr/bin/gdallocationinfo -valonly window.vrt 1 0) &&
            ours=$("$program" gdallocationinfo -valonly window.bil 1 0) && [ "$theirs" = "$ours" ]
    }
    holds 'and finds the same pixels' finds_same
fi

# a long mosaic killed at odd moments: the name holds its old bytes or its new ones
for number in $(seq 20000); do echo hills.bil; done >many.txt
begin=$(now)
expect 'a mosaic of 20,000 inputs' 0 '' gdalbuildvrt -q many.vrt -input_file_list many.txt
took=$(($(now) - begin)) before=$(temporaries) whole=yes
kill_mosaic() {
    printf 'old' >killed.vrt
    killed "$1" gdalbuildvrt -q killed.vrt -input_file_list many.txt
    [ "$(head -c 4 killed.vrt)" = old ] || cmp -s many.vrt killed.vrt || whole=no
}
for delay in $(moments "$took" 0.001 0.003 0.01 0.02 0.03 0.05 0.08 0.1 0.15 0.2 0.3); do kill_mosaic "$delay"; done
holds 'one of the killed runs left a temporary file' leaves_one "$before" "$took" kill_mosaic
holds 'killed at odd moments, the document is the old one or the new one' test "$whole" = yes
left=$(temporaries)
expect 'the next mosaic under that name' 0 '' gdalbuildvrt -q killed.vrt -input_file_list many.txt
holds 'which is whole' cmp -s many.vrt killed.vrt
holds 'and leaves no temporary file of its own' test "$(temporaries)" = "$left"

echo "tried $tried, failed $failed"
[ "$failed" -eq 0 ]
