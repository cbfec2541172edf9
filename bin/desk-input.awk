# For bin/desk: says what makes an input unfit to be run, in lines of its own; prints nothing if nothing does. Reads the bytes as numbers.
function byte(b) {
    bytes++
    if (bytes == 65537) {
        return
    }
    if (bytes <= 3) {
        start = start b " "
    }
    if (last == 10 || bytes == 1) {
        line++
    }
    if (b == 13 && returned != line) {
        returned = line
        if (++returns <= 10) {
            where = where (returns > 1 ? ", " : "") line
        }
    }
    last = b
}
{
    for (i = 1; i <= NF; i++) {
        byte($i + 0)
    }
}
END {
    if (start == "239 187 191 ") {
        print "line 1: begins with a byte order mark (bytes EF BB BF): save the file as UTF-8 or ASCII without one"
    }
    if (returns == 1) {
        print "line " where ": has a CR byte: save the file with Unix line ends, LF alone"
    } else if (returns > 1) {
        print "lines " where (returns > 10 ? " and " returns - 10 " more" : "") ": have a CR byte: save the file with Unix line ends, LF alone"
    }
    if (bytes > 65536) {
        print "line " (last == 10 ? line + 1 : line) ": goes beyond the 65,536 bytes that are read"
    } else if (bytes > 0 && last != 10) {
        print "line " line ": the last line has no LF: end it with Enter"
    }
}
