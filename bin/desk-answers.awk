# For bin/desk: puts the line program's answers, the first file, into words beside the lines, whose bytes the second has as numbers.
# Exit status: 0 every line was accepted, 1 one was not, 2 there are not as many answers as lines.
BEGIN {
    form["open"] = "open B1 B2"
    form["add"] = "add KIND ID PLAN"
    form["set"] = "set KIND ID PLAN"
    form["del"] = "del KIND ID"
    form["get"] = "get KIND ID"
}
FILENAME == ARGV[1] {
    answer[FNR] = $0
    answers = FNR
    next
}
{
    for (i = 1; i <= NF; i++) {
        if ($i == 10) {
            end_line()
        } else {
            at[++size] = $i + 0
        }
    }
}
END {
    print lines + 0 (lines == 1 ? " line: " : " lines: ") accepted + 0 " accepted, " refused + 0 " refused, " unread + 0 " not read"
    exit (lines + 0 != answers + 0 ? 2 : refused + unread > 0)
}

# a byte as it is shown: nothing but printable ASCII reaches a terminal
function shown(b) {
    return b >= 32 && b < 127 ? sprintf("%c", b) : sprintf("\\x%02x", b)
}

function end_line(  i, text) {
    lines++
    fields = 1
    split("", field)
    for (i = 1; i <= size && i <= 63; i++) {
        text = text shown(at[i])
        if (at[i] == 32) {
            fields++
        } else {
            field[fields] = field[fields] shown(at[i])
        }
    }
    printf "%-30s   %s\n", lines ": " text (size > 63 ? "..." : ""), words(answer[lines])
    size = 0
}

function words(a) {
    if (a ~ /^ok [0-9]+$/) {
        accepted++
        return "accepted: " returned(field[1], substr(a, 4))
    }
    if (a ~ /^no [0-9]+$/) {
        refused++
        return "refused: " cause(substr(a, 4) + 0)
    }
    unread++
    return "not read: " fault()
}

# the identifier that a line is about: kind and letters, as the table tells them apart
function identifier(kind) {
    return kind " " toupper(field[3])
}

# what the number n says that an accepted line returns
function returned(verb, n) {
    if (verb == "open") {
        opened = 1
        split("", since)
        return "the table is open and empty"
    }
    if (verb == "add") {
        since[identifier(field[2])] = lines
        return "it has plan " field[4] "; live identifiers: " n
    }
    if (verb == "set") {
        return "it has plan " field[4] "; it had plan " n
    }
    if (verb == "del") {
        delete since[identifier(field[2])]
        return "it is withdrawn; it had plan " n
    }
    return "it has plan " n
}

# the causes that a line can meet
function cause(n,  id) {
    id = identifier(field[2])
    if (n == 1) {
        return field[3] == "" ? "the identifier is empty" : "the identifier has " id_bytes() " bytes, at most 36 are allowed"
    }
    if (n == 2) {
        return "the identifier has " stranger() "; allowed are letters, digits and * - _ = : + | @ ."
    }
    if (n == 3) {
        return "a table has 1 to 48 buckets at level 1 and 1 to 32 at level 2"
    }
    if (n == 6) {
        return "it is live already" (id in since ? ", since line " since[id] : "") "; set changes its plan"
    }
    if (n == 7) {
        return "it is not live" other_kinds()
    }
    if (n == 8) {
        return "no room for it, the base list is full; open a table with a bucket for each 50 identifiers, 3 at level 1 to 2 at level 2"
    }
    if (n == 14) {
        return "plan 255 is given to no identifier: it means \"call the desk\""
    }
    if (n == 15) {
        return "the kind " field[2] " is none of 1 Central, 2 eMAID, 3 ISO14443, 4 ISO15693, 5 KeyCode, 6 Local, 7 MacAddress"
    }
    return "cause " n
}

# since when the same letters are live under other kinds: those are other identifiers
function other_kinds(  kind, found) {
    for (kind = 1; kind <= 7; kind++) {
        if (identifier(kind) in since) {
            found = found "; the same letters under kind " kind " are, since line " since[identifier(kind)]
        }
    }
    return found
}

# the bytes of ID, which the kind's digit stands before
function id_bytes(  i, n) {
    for (i = length(field[1]) + 4; i <= size && at[i] != 32; i++) {
        n++
    }
    return n + 0
}

# the first byte of ID that is not allowed
function stranger(  i) {
    for (i = length(field[1]) + 4; i <= size && at[i] != 32; i++) {
        if (at[i] > 127) {
            return "a character that is not ASCII (byte " shown(at[i]) ")"
        }
        if (shown(at[i]) !~ /^[A-Za-z0-9*_=:+|@.-]$/) {
            return "\"" shown(at[i]) "\""
        }
    }
    return "a byte that is not allowed"
}

# why a line was not read
function fault(  verb, f) {
    verb = field[1]
    if (size > 63) {
        return "the line has " size " bytes, at most 63 are allowed"
    }
    if (size == 0) {
        return "the line is empty"
    }
    if (at[1] == 32) {
        return "the line begins with a space"
    }
    if (!(verb in form)) {
        return "\"" verb "\" is none of open, add, set, del, get" (tolower(verb) in form ? ", in small letters" : "")
    }
    if (fields > split(form[verb], f, " ") && at[size] == 32) {
        return "the line ends with a space"
    }
    if (fields != split(form[verb], f, " ")) {
        return "its form is \"" form[verb] "\", with single spaces"
    }
    if (verb == "open" && misread(field[2], 999) != "") {
        return "B1 " misread(field[2], 999)
    }
    if (verb == "open" && misread(field[3], 999) != "") {
        return "B2 " misread(field[3], 999)
    }
    if (verb != "open" && field[2] !~ /^[0-9]$/) {
        return "the kind " (field[2] == "" ? "is missing" : "\"" field[2] "\" is wrong") ": it is one digit, 1 to 7"
    }
    if (fields == 4 && misread(field[4], 255) != "") {
        return "the plan " misread(field[4], 255)
    }
    return opened ? "the line program does not know it" : "no table is open yet; open B1 B2 opens one"
}

# what is wrong with the field s as a number to limit, or nothing
function misread(s, limit) {
    if (s == "") {
        return "is missing"
    }
    if (s !~ /^[0-9]+$/) {
        return "\"" s "\" is not a number in digits"
    }
    if (s ~ /^0./) {
        return "\"" s "\" has a leading zero"
    }
    return s + 0 > limit ? s " is over " limit : ""
}
