#compdef las
# zsh completion of las. Made by help/make from the texts of help/; change those.
local first=2 option= at
local -a words_of_las
[[ $words[2] == --safe && CURRENT -gt 2 ]] && first=3
for ((at = CURRENT - 1; at > first; at--)); do
    [[ $words[at] == -[a-z]* ]] && option=$words[at] && break
done
if (( CURRENT == first )); then
    words_of_las=(
        'laszip:packs a plain LAS file, or unpacks a packed one'
        'las2las:filters, thins and changes point records'
        'lasinfo:reports what is in a file'
        'lassplit:splits a file into parts'
        'lasmerge:joins files that were written under one header'
        'make:makes a file to try the others on'
        'help:tells of a command or a cause'
    )
    (( first == 2 )) && words_of_las+=('--safe:gives outputs their names when they are whole')
    _describe command words_of_las && return
fi
case $words[CURRENT-1] in
-i | -o | -z) _files && return ;;
-keep_class | -drop_class | -set_classification) words_of_las=('0:created, never classified' '1:unclassified' '2:ground' '3:low vegetation' '4:medium vegetation' '5:high vegetation' '6:building' '7:low point (noise)' '8:model key-point' '9:water' '12:overlap') && _describe value words_of_las && return ;;
-keep_return | -drop_return) words_of_las=('1:first' '2:second' '3:third' '4:fourth' '5:fifth' '6:sixth' '7:seventh') && _describe value words_of_las && return ;;
-tally) words_of_las=('class:by class' 'source:by point source ID' 'return:by return number' 'intensity:by intensity') && _describe value words_of_las && return ;;
-format) words_of_las=('0:20 bytes' '1:with GPS time' '2:with colour' '3:with GPS time and colour') && _describe value words_of_las && return ;;
-cores) words_of_las=('1:worker' '2:workers' '4:workers' '8:workers') && _describe value words_of_las && return ;;
-chunk_size) words_of_las=('50000:points, as LASzip has it') && _describe value words_of_las && return ;;
[0-9]*)
    case $option in
    -keep_class | -drop_class) words_of_las=('0:created, never classified' '1:unclassified' '2:ground' '3:low vegetation' '4:medium vegetation' '5:high vegetation' '6:building' '7:low point (noise)' '8:model key-point' '9:water' '12:overlap') && _describe value words_of_las ;;
    -keep_return | -drop_return) words_of_las=('1:first' '2:second' '3:third' '4:fourth' '5:fifth' '6:sixth' '7:seventh') && _describe value words_of_las ;;
    esac
    ;;
esac
case $words[first] in
laszip)
    words_of_las=(
        '-i:The input, a LAS file, plain or packed'
        '-o:The output'
        '-chunk_size:points in a chunk of the packed output'
        '-cores:workers'
    )
    ;;
las2las)
    words_of_las=(
        '-i:The input, a LAS file, plain or packed'
        '-o:The output'
        '-tally:Counts records by class, source, return or intensity, as they are written'
        '-start_at_point:the place of the first record that is taken, counted from 0'
        '-stop_at_point:the place of the first record after it that is not taken'
        '-keep_class:keeps the records of these classes'
        '-drop_class:leaves out the records of these classes'
        '-keep_return:keeps the records with these return numbers'
        '-drop_return:leaves out the records with these return numbers'
        '-keep_first:Keeps first returns'
        '-keep_last:Keeps last returns'
        '-keep_intensity:keeps the records with an intensity from LOW to HIGH'
        '-drop_intensity_below:leaves out the records with an intensity below N'
        '-drop_intensity_above:leaves out the records with an intensity above N'
        '-drop_repeated:Leaves out the records that have X, Y and Z of an earlier one'
        '-thin_raw:leaves one record in each cell of N by N units of raw X and Y, the first one'
        '-lowest:With -thin_raw the record of a cell that stays is the one with the least Z, the first of these'
        '-highest:With -thin_raw the record of a cell that stays is the one with the greatest Z, the first of these'
        '-translate_raw_xyz:adds these numbers to the raw coordinates, in units of the scale factors'
        '-translate_raw_x:adds N to raw X'
        '-translate_raw_y:adds N to raw Y'
        '-translate_raw_z:adds N to raw Z'
        '-set_classification:gives every record this class'
        '-set_user_data:gives every record this user data'
        '-set_point_source:gives every record this point source ID'
        '-olas:The output is plain, whatever its name'
        '-olaz:The output is packed, whatever its name'
        '-chunk_size:points in a chunk of the packed output'
        '-cores:workers'
    )
    ;;
lasinfo)
    words_of_las=(
        '-i:The input, a LAS file, plain or packed'
        '-tally:Counts records by class, source, return or intensity'
        '-cores:workers'
    )
    ;;
lassplit)
    words_of_las=(
        '-i:The input, a LAS file, plain or packed'
        '-o:The name that parts are named after'
        '-split:1 to 4294967295 records a part, in the order of the file'
        '-by_classification:A part for each class'
        '-by_flightline:A part for each point source ID'
        '-by_return:A part for each return number'
        '-cores:workers'
    )
    ;;
lasmerge)
    words_of_las=(
        '-i:An input, given 1 to 32 times'
        '-o:The output'
        '-olas:The output is plain, whatever its name'
        '-olaz:The output is packed, whatever its name'
        '-copy_chunks:Copies the chunks of packed inputs as they stand, and unpacks nothing'
        '-chunk_size:points in a chunk of the packed output'
        '-cores:workers'
    )
    ;;
make)
    words_of_las=(
        '-o:The plain output'
        '-z:The packed output, with another name than the plain one'
        '-points:the number of point records'
        '-seed:where the random numbers start'
        '-format:the point data format'
        '-extra:extra bytes a record'
        '-chunk_size:points in a chunk of the packed output'
        '-cores:workers'
    )
    ;;
help)
    words_of_las=(
        'laszip:packs a plain LAS file, or unpacks a packed one'
        'las2las:filters, thins and changes point records'
        'lasinfo:reports what is in a file'
        'lassplit:splits a file into parts'
        'lasmerge:joins files that were written under one header'
        'make:makes a file to try the others on'
        'las-batch:runs a command over many files'
        'Short:cause 1 Short'
        'Magic:cause 2 Magic'
        'Version:cause 3 Version'
        'HeaderSize:cause 4 HeaderSize'
        'Offset:cause 5 Offset'
        'Vlrs:cause 6 Vlrs'
        'Format:cause 7 Format'
        'RecordLength:cause 8 RecordLength'
        'Count:cause 9 Count'
        'Trailing:cause 10 Trailing'
        'StrayVlr:cause 11 StrayVlr'
        'NoVlr:cause 12 NoVlr'
        'VlrShape:cause 13 VlrShape'
        'Compressor:cause 14 Compressor'
        'Items:cause 15 Items'
        'ChunkSize:cause 16 ChunkSize'
        'TooManyChunks:cause 17 TooManyChunks'
        'TablePointer:cause 18 TablePointer'
        'Table:cause 19 Table'
        'ChunkSum:cause 20 ChunkSum'
        'BadChunk:cause 21 BadChunk'
        'RawRange:cause 22 RawRange'
        'TooManyParts:cause 23 TooManyParts'
        'PointSum:cause 24 PointSum'
        'Extended:cause 25 Extended'
        'PointCounts:cause 26 PointCounts'
        'NotPacked:cause 27 NotPacked'
    )
    ;;
esac
_describe -o option words_of_las
