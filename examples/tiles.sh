#!/usr/bin/env bash
# Cuts a raster into windows, which are written beside each other, and puts these together to a mosaic.
#
#   tiles.sh run SOURCE FOLDER OUTPUT.vrt SIZE JOBS [OPTION]..    all of it on this machine, JOBS windows at a time
#   tiles.sh windows SOURCE SIZE                 a line for each window of SIZE x SIZE pixels: column, line, columns,
#                                                lines
#   tiles.sh window SOURCE FOLDER [OPTION].. COLUMN LINE COLUMNS LINES    writes one window as raw data
#   tiles.sh mosaic FOLDER OUTPUT.vrt            the mosaic of the windows in FOLDER
#
# The options are those of gdal_translate, whose commands have to stand on PATH. A window whose header is there is
# whole, since the header gets its name last: so a job that was cut off goes on where it ended.
set -euo pipefail

windows() {
    gdalinfo "$1" | awk -v size="$2" '
        /^Size is / {
            columns = $3 + 0
            for (line = 0; line < $4; line += size)
                for (column = 0; column < columns; column += size)
                    print column, line, (columns - column < size ? columns - column : size),
                        ($4 - line < size ? $4 - line : size)
        }'
}

window() {
    local source=$1 folder=$2
    shift 2
    local tile="$folder/${*: -4:1}_${*: -3:1}" place=("${@: -4}")
    set -- "${@:1:$#-4}"
    [ -e "$tile.hdr" ] || gdal_translate -q "$@" -srcwin "${place[@]}" "$source" "$tile.bil"
}

mosaic() {
    find "$1" -name '*.bil' | sort >"$1/list.txt"
    gdalbuildvrt -q -strict "$2" -input_file_list "$1/list.txt"
}

run() {
    local source=$1 folder=$2 output=$3 size=$4 jobs=$5
    shift 5
    mkdir -p "$folder"
    # xargs puts the four numbers of a line behind the words, and fails where a window failed
    windows "$source" "$size" | xargs -P "$jobs" -L 1 "$0" window "$source" "$folder" "$@"
    mosaic "$folder" "$output"
}

case ${1-} in
    run | windows | window | mosaic) "$@" ;;
    *) sed -n '2,10s/^# \{0,1\}//p' "$0" >&2 && exit 1 ;;
esac
