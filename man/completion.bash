# Completions of the five commands for bash: source this file.

_jirovamby() {
    local word=$2 before=$3 options='--config --blocks --workers' words=
    case $before in
        -of) words='EHdr DTED SRTMHGT AAIGrid VRT' ;;
        -ot) words='Byte Int8 UInt16 Int16 UInt32 Int32 UInt64 Int64' ;;
        -resolution) words='highest lowest average user' ;;
        --config) words='DTED_VERIFY_CHECKSUM' ;;
        DTED_VERIFY_CHECKSUM) words='YES NO' ;;
        -a_nodata | -srcnodata | -vrtnodata) words='none' ;;
        -co) words='INTERLEAVE=BIL INTERLEAVE=BIP INTERLEAVE=BSQ' ;;
        INTERLEAVE | =) [[ $COMP_LINE == *' -co INTERLEAVE='* ]] && words='BIL BIP BSQ' ;; # bash cuts words at a =
    esac
    if [[ -n $words ]]; then
        compopt +o filenames
        mapfile -t COMPREPLY < <(compgen -W "$words" -- "${word#=}") && return
    fi
    case ${1##*/} in
        gdallocationinfo) options+=' -b -valonly -lifonly -geoloc' ;;
        gdal_translate) options+=' -of -b -srcwin -projwin -outsize -ot -a_nodata -co -q -epo -eco' ;;
        gdalbuildvrt)
            options+=' -input_file_list -resolution -tr -te -b -separate -srcnodata -vrtnodata -strict -overwrite -q' ;;
        synth) [[ $word == -* ]] || return ;; # a number
    esac
    if [[ $word == -* ]]; then
        mapfile -t COMPREPLY < <(compgen -W "$options" -- "$word")
    else
        mapfile -t COMPREPLY < <(compgen -f -- "$word")
    fi
}

complete -o filenames -F _jirovamby gdalinfo gdal_translate gdalbuildvrt gdallocationinfo synth
