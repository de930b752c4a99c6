# bash completion of las. Made by help/make from the texts of help/; change those.
_las() {
    local word=${COMP_WORDS[COMP_CWORD]} before=${COMP_WORDS[COMP_CWORD-1]} words='' option='' first=1 at
    COMPREPLY=()
    if [ "${COMP_WORDS[1]}" = --safe ] && [ "$COMP_CWORD" -gt 1 ]; then first=2; fi
    for ((at = COMP_CWORD - 1; at > first; at--)); do
        case ${COMP_WORDS[at]} in -[a-z]*) option=${COMP_WORDS[at]} && break ;; esac
    done
    if [ "$COMP_CWORD" -eq "$first" ]; then
        words='laszip las2las lasinfo lassplit lasmerge make'
        [ $first -eq 2 ] || words="$words help --safe --help --version"
    else
        case ${COMP_WORDS[first]} in
        laszip)
            words='-i -o -chunk_size -cores --help'
            ;;
        las2las)
            words='-i -o -tally -start_at_point -stop_at_point -keep_class -drop_class
                -keep_return -drop_return -keep_first -keep_last
                -keep_intensity -drop_intensity_below -drop_intensity_above
                -drop_repeated -thin_raw -lowest -highest -translate_raw_xyz
                -translate_raw_x -translate_raw_y -translate_raw_z
                -set_classification -set_user_data -set_point_source -olas
                -olaz -chunk_size -cores --help'
            ;;
        lasinfo)
            words='-i -tally -cores --help'
            ;;
        lassplit)
            words='-i -o -split -by_classification -by_flightline -by_return -cores --help'
            ;;
        lasmerge)
            words='-i -o -olas -olaz -copy_chunks -chunk_size -cores --help'
            ;;
        make)
            words='-o -z -points -seed -format -extra -chunk_size -cores --help'
            ;;
        help)
            words='laszip las2las lasinfo lassplit lasmerge make Short Magic Version HeaderSize
                Offset Vlrs Format RecordLength Count Trailing StrayVlr NoVlr
                VlrShape Compressor Items ChunkSize TooManyChunks TablePointer
                Table ChunkSum BadChunk RawRange TooManyParts PointSum Extended
                PointCounts NotPacked las-batch'
            ;;
        esac
        case $before in
        -i | -o | -z) words= ;;
        -keep_class | -drop_class | -set_classification) words='0 1 2 3 4 5 6 7 8 9 12' ;;
        -keep_return | -drop_return) words='1 2 3 4 5 6 7' ;;
        -tally) words='class source return intensity' ;;
        -format) words='0 1 2 3' ;;
        -cores) words='1 2 4 8' ;;
        -chunk_size) words='50000' ;;
        *)
            case $option in
            -keep_class | -drop_class) words="$words 0 1 2 3 4 5 6 7 8 9 12" ;;
            -keep_return | -drop_return) words="$words 1 2 3 4 5 6 7" ;;
            esac
            ;;
        esac
    fi
    if [ -n "$words" ]; then
        mapfile -t COMPREPLY < <(compgen -W "$words" -- "$word")
    fi
}
complete -o default -F _las las
