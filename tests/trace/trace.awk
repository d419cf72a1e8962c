# Reads, by `role`, the list of all files and folders, the files of code, docs/TRACE.md and README.md. It prints a line for each
# fault of the last two, what has none, and 'N passed, M failed': the rows of TRACE, the lines of README and the edits count as one
# each where they have no fault. Bytes above 127 count as letters (LC_ALL=C).

function fault(what) {
    print "FAILED " FILENAME ", line " FNR ": " what
    faults[role]++
    clean = 0
}

# ---- the list: what is there, and the edits

role == "list" {
    there[$0] = 1
    count = split($0, part, "/")
    last_part[part[count]] = 1
    if (part[1] == "crates" && count == 2) known[part[2]] = 1
    if (part[1] == "crates" && count == 4 && part[3] == "must-fail" && sub(/\.edit$/, "", part[4])) {
        edit[++edits] = part[2] "/" part[4]
        exists[edit[edits]] = 1
        holders[part[4]]++
        holder[part[4]] = part[2]
    }
}

# ---- code: the names that a file has, and those that it declares; what stands below a claim's name; functions

role == "code" {
    line = $0
    if (FILENAME ~ /\.antt$/) sub(/(^| )--( .*)?$/, "", line)
    else if (FILENAME ~ /\.(rt|rs|c|h)$/) sub(/(\/\/|\/\*|^ \*).*/, "", line)
    else sub(/(^|[ \t])#.*/, "", line)
    if (line ~ /^[ \t]*$/ || line ~ /^ *(pub |ghost )*use /) next
    match(line, /^ */)
    indent = RLENGTH
    if (FNR == 1 || indent <= depth) owner = ""
    own = line
    sub(/^ *(abbrev |pub |pub\([a-z]+\) |extern "C" )*/, "", own)
    keyword = ""
    if (match(own, /^(record|data|fn|const|static|struct|enum|trait|type) /)) {
        keyword = substr(own, 1, RLENGTH - 1)
        own = substr(own, RLENGTH + 1)
    }
    split(own, word, /[^A-Za-z0-9_'\200-\377-]+/)
    first = word[1]
    # a definition, a field, a case of an enum
    if (keyword != "" || (indent == 0 && FILENAME ~ /\.antt$/) || own ~ /^[^ :(]+( [^ :(]+)* ?: / ||
        own ~ /^[A-Z][A-Za-z]*(\([^()]*\))?,$/) declared[FILENAME, first] = 1
    if (first != "" && (keyword == "record" || indent == 0)) {
        owner = first
        depth = indent
    }
    if (keyword == "fn" && FILENAME ~ /^crates\//) {
        split(FILENAME, part, "/")
        crate_of[first] = part[2]
        function_of[part[2], first] = 1
        sub(/ *\{?$/, "", own)
        signature[own] = 1
    }
    count = split(line, word, /[^A-Za-z0-9_'\200-\377-]+/)
    for (i = 1; i <= count; i++) {
        known[word[i]] = 1
        has[FILENAME, word[i]] = 1
        below[owner, word[i]] = 1
    }
}

# ---- TRACE

# Takes the names in `code` apart, which may be Type::function or several words. A byte is no name.
function apart(code, word,    part, count, i, number) {
    count = split(code, part, /::|[ :.]+/)
    number = 0
    for (i = 1; i <= count; i++) {
        if (part[i] ~ /^[A-Za-z]/ && part[i] !~ /^[0-9A-F][0-9A-F]$/) word[++number] = part[i]
    }
    return number
}

# Holds every name of a row to the code.
function names_known(text,    word, count, i, code) {
    while (match(text, /`[^`]*`/)) {
        code = substr(text, RSTART + 1, RLENGTH - 2)
        text = substr(text, RSTART + RLENGTH)
        count = apart(code, word)
        for (i = 1; i <= count; i++) {
            if (!(word[i] in known)) fault("`" word[i] "` is no name in the code")
        }
    }
}

# Holds a name to the files at hand: one of them declares it, or has it where `code` is more than a name.
function held(code,    word, count, i, j, found) {
    count = apart(code, word)
    for (i = 1; i <= count; i++) {
        found = 0
        for (j = 1; j <= files; j++) {
            if (code ~ / / || file[j] !~ /\.(antt|rt|rs)$/) found += (file[j], word[i]) in has
            else found += (file[j], word[i]) in declared
        }
        if (!found) fault("`" word[i] "` is not declared in " file[1] (files > 1 ? " or the next" : ""))
    }
}

# Ends a group of names and their files.
function settle(    i) {
    for (i = 1; files && i <= names; i++) held(name[i])
    names = files = 0
}

function clause() {
    settle()
    listing = colon = 0
}

function name_read(code,    i) {
    if (owning) {
        for (i = 1; i <= fields; i++) {
            if (!((code, field[i]) in below)) fault("`" code "` has no `" field[i] "`")
        }
        fields = owning = 0
    } else {
        if (before !~ /^(and|,)$/) fields = 0
        field[++fields] = code
    }
    if (colon) held(code)
    else {
        if (files) settle()
        name[++names] = code
    }
    listing = 0
    before = "name"
}

function file_read(word,    path, up) {
    up = folder
    sub(/\/[^\/]*$/, "", up)
    if (word in there) path = word
    else if ("crates/" word in there) path = "crates/" word
    # a stored run
    else if (word ".in" in there) path = word ".in"
    # a neighbour of the last file, or a folder of its crate
    else if (folder "/" word in there) path = folder "/" word
    else if (up "/" word in there) path = up "/" word
    else {
        fault(word " is no file")
        return
    }
    # names are not looked for in a folder
    if (path !~ /\/$/ && !(path "/" in there)) file[++files] = path
    if (sub(/\/[^\/]*\.[a-z]+$/, "", path)) folder = path
}

function edit_read(word,    path) {
    path = word ~ /\// ? word : (crate == "" ? holder[word] : crate) "/" word
    if (crate == "" && holders[word] > 1) fault("several crates have an edit " word)
    else if (path in exists) named[path] = 1
    else fault(word " is no edit" (crate == "" ? "" : " of " crate))
}

# Whether a word is an edit's name: it has a _, or stands alone in a list of edits.
function is_edit(word, rest) {
    if (word ~ /^([A-Za-z0-9_]+\/)?[A-Za-z0-9]*_[A-Za-z0-9_]*$/) return !("crates/" word in there)
    return listing && word ~ /^([a-z_]+\/)?[a-z0-9]+$/ && word != "and" && rest ~ /^([.,;)]|$| and )/
}

function word_read(word, rest) {
    owning = word == "of" && before == "name"
    before = word
    if (word ~ /^edits?$/) listing = 1
    else if (is_edit(word, rest)) edit_read(word)
    else if (word ~ /\/|\.[a-z]+$/) {
        if (colon) clause()
        file_read(word)
        before = "file"
    } else if (word !~ /^(and|of)$/) {
        if (colon) clause()
        listing = 0
    }
}

function sign_read(sign) {
    if (sign == ":" && before == "file") colon = 1
    else if (sign ~ /[:;.]/) clause()
    owning = 0
    before = sign
}

# A cell is names in `code`, words, of which some are files and edits, and signs.
function cell_read(text, list,    size) {
    clause()
    listing = list
    owning = 0
    before = ""
    while (text != "") {
        size = 1
        if (match(text, /^`[^`]*`/)) {
            size = RLENGTH
            name_read(substr(text, 2, size - 2))
        } else if (match(text, /^[A-Za-z0-9_'\/\200-\377-]*(\.[A-Za-z0-9_'\/\200-\377-]+)*/) && RLENGTH > 0) {
            size = RLENGTH
            word_read(substr(text, 1, size), substr(text, size + 1))
        } else if (text !~ /^ /) sign_read(substr(text, 1, 1))
        text = substr(text, size + 1)
    }
    clause()
}

role == "trace" && !/^\|/ { head = "" }

role == "trace" && /^\|/ && !/^\|---/ {
    clean = 1
    folder = crate = ""
    row = $0
    gsub(/^\| *| *\|$/, "", row)
    cells = split(row, cell, / \| /)
    if (head == "") {
        head = cell[1]
        next
    }
    names_known(row)
    # the edits of a row of functions are those of the function's crate
    if (head == "function") {
        gsub(/`/, "", cell[1])
        count = split(cell[1], part, /::/)
        crate = count > 1 ? part[1] : crate_of[part[1]]
        if (!((crate, part[count]) in function_of)) fault(cell[1] " is no function")
    }
    for (i = 2; i <= cells; i++) cell_read(cell[i], head == "function" && i == cells)
    good["trace"] += clean
}

# ---- README: its files, the functions as its tables declare them, and the names of the C interface

role == "readme" {
    clean = 1
    found = 0
    line = $0
    while (match(line, /`[A-Za-z0-9]+\.antt`|(crates|tests|docs|include|bench|\.ci)\/([A-Za-z0-9_.\/-]*[A-Za-z0-9_\/])?/)) {
        found = 1
        path = substr(line, RSTART, RLENGTH)
        line = substr(line, RSTART + RLENGTH)
        gsub(/`/, "", path)
        if (!(path in there || path in last_part)) fault(path " is no file")
    }
    line = $0
    while (match(line, /`[A-Za-z_:]+\([^`]*\) -> [^`]*`/)) {
        found = 1
        call = substr(line, RSTART + 1, RLENGTH - 2)
        line = substr(line, RSTART + RLENGTH)
        sub(/^[A-Za-z]+::/, "", call)
        if (!(call in signature)) fault(call " is no function")
    }
    line = $0
    while (match(line, /`uldaseong_[^`]*\)`/)) {
        found = 1
        call = substr(line, RSTART + 1, RLENGTH - 2)
        line = substr(line, RSTART + RLENGTH)
        count = split(call, word, /[(), ]+/)
        for (i = 1; i < count; i++) {
            if (!(("include/uldaseong.h", word[i]) in has)) fault(word[i] " of " call " is not in include/uldaseong.h")
        }
    }
    good["readme"] += found && clean
}

# Counts what was held as one that passed, or its faults.
function count_up(what, of) {
    failed += faults[of]
    if (!faults[of] && good[of]) passed++
    print what ": " good[of] + 0 " without a fault"
}

END {
    for (i = 1; i <= edits; i++) {
        if (edit[i] in named) good["edits"]++
        else {
            print "FAILED " edit[i] ": docs/TRACE.md does not name this edit"
            faults["edits"]++
        }
    }
    count_up("rows of docs/TRACE.md", "trace")
    count_up("lines of README.md", "readme")
    count_up("must-fail edits", "edits")
    print passed + 0 " passed, " failed + 0 " failed"
    exit (failed > 0 || passed < 3)
}
