# The functions and constants of files of Rattle (CRATE/src/*.rt), a line for each part of one: NAME, PART and TEXT, parted by tabs. PART is head
# (attributes, parameters, result), contract, body or const. NAME is CRATE::FUNCTION; a method has its type before FUNCTION, and what stands in another
# file than lib.rt and main.rt the file's name. TEXT has no comments, white space only between two words and in literals, no comma before a closing bracket.

# A line without its comment. Braces, spaces and semicolons of literals are put otherwise, until `squeezed`.
function code(line,    out, m) {
    while (match(line, /\/\/|"([^"\\]|\\.)*"|'([^'\\]|\\.)'/)) {
        m = substr(line, RSTART, RLENGTH)
        if (m == "//")
            return out substr(line, 1, RSTART - 1)
        gsub(/\{/, "\004", m)
        gsub(/\}/, "\005", m)
        gsub(/ /, "\006", m)
        gsub(/;/, "\007", m)
        out = out substr(line, 1, RSTART - 1) m
        line = substr(line, RSTART + RLENGTH)
    }
    return out line
}

function squeezed(s) {
    gsub(/[A-Za-z0-9_]+/, "\001&\002", s)
    gsub(/\002[ \t]+\001/, "\003", s)
    gsub(/[ \t\001\002]/, "", s)
    gsub(/\003/, " ", s)
    gsub(/,\)/, ")", s)
    gsub(/,\]/, "]", s)
    gsub(/,\}/, "}", s)
    gsub(/\004/, "{", s)
    gsub(/\005/, "}", s)
    gsub(/\006/, " ", s)
    gsub(/\007/, ";", s)
    return s
}

function show(name, part, text) { print file type name "\t" part "\t" squeezed(text) }

# The constants among the items between two braces.
function constants(items,    a, n, i, item) {
    n = split(items, a, ";")
    for (i = 1; i <= n; i++) {
        item = item a[i]
        if (gsub(/\[/, "[", item) > gsub(/\]/, "]", item)) {
            item = item ";"
            continue
        }
        if (match(item, /const [A-Z0-9_]+/))
            show(substr(item, RSTART + 6, RLENGTH - 6), "const", item)
        item = ""
    }
}

# A whole file: texts and braces in turn. A block after `requires` or `ensures` is of the contract, the next is the body.
function parsed(text,    piece, n, i, t, depth, within, state, name, last, head, contract, body) {
    gsub(/[{}]/, "\n&\n", text)
    n = split(text, piece, "\n")
    type = ""
    for (i = 1; i <= n; i++) {
        t = piece[i]
        if (t == "{") {
            depth++
            if (state == "head") {
                state = last ~ /(requires|ensures)( [A-Za-z0-9_]+)? *$/ ? "contract" : "body"
                within = depth
                t = state == "body" ? "" : t
            } else if (state == "" && match(last, /impl [A-Za-z0-9_]+ *$/)) {
                type = substr(last, RSTART + 5) "::"
                gsub(/ /, "", type)
            }
        } else if (t == "}") {
            depth--
            if (state == "body" && depth < within) {
                show(name, "head", head)
                show(name, "contract", contract)
                show(name, "body", body)
                state = ""
                continue
            }
            if (state == "contract" && depth < within)
                state = "head"
            else if (state == "" && depth == 0)
                type = ""
        } else {
            last = t
            if (state == "") {
                constants(t)
                if (!match(t, /(^|[^A-Za-z0-9_])fn [A-Za-z0-9_]+/))
                    continue
                state = "head"
                name = substr(t, RSTART, RLENGTH)
                sub(/.*fn /, "", name)
                head = substr(t, RSTART)
                t = substr(t, 1, RSTART - 1)
                sub(/.*;/, "", t)
                head = t head
                t = ""
                contract = body = ""
                if (match(head, /(requires|ensures)( [A-Za-z0-9_]+)? *$/)) {
                    t = substr(head, RSTART)
                    head = substr(head, 1, RSTART - 1)
                }
            }
        }
        if (state == "body")
            body = body t
        else if (state != "")
            contract = contract t
    }
}

FNR == 1 {
    if (NR > 1)
        parsed(text)
    text = ""
    n = split(FILENAME, path, "/")
    file = path[n - 2] "::"
    if (path[n] !~ /^(lib|main)\.rt$/)
        file = file substr(path[n], 1, length(path[n]) - 3) "::"
}
{ text = text " " code($0) }
END { parsed(text) }
