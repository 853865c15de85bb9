# What .ci/names does with the list of files on standard input, the code and the documents.

function finding(word, why) { print FILENAME ":" FNR ": " word ": " why; findings++ }

function is_document() { return FILENAME ~ /\.md$/ && FILENAME !~ /^docs\/(landings\/|(PORT|DESIGN-PASS)\.md$)/ }

function folder(path) { return sub(/\/[^\/]*$/, "", path) ? path : "" }

# The names of crates, and those of files, with their endings and without, count as declared.
function enter(path,  n, part) {
    list[++files] = path
    n = split(path, part, "/")
    if (n > 3 && part[1] == "crates") { declared[part[2]] = 1; of_crates[part[3]] = 1 }
    declared[part[n]] = 1
    if (part[n] ~ /\.md$/) document[part[n]] = 1
    if (sub(/\.edit$/, "", part[n])) editions[part[n]]++
    else if (sub(/\.[a-z]+$/, "", part[n])) declared[part[n]] = 1
    for (; path != "" && !(path in there); path = folder(path)) there[path] = 1
}

# ---- the code: its words, where they stand, and those that it declares; an .antt file has those that it declares

function stands_here(word,  path) { for (path = FILENAME; path != ""; path = folder(path)) stands[path, word] = 1 }

function has_words(line, bounds,  k, n, word) {
    n = split(line, word, bounds)
    for (k = 1; k <= n; k++) if (word[k] != "") {
        said[word[k]] = 1
        if (FILENAME !~ /\.antt$/) stands_here(word[k])
    }
}

function declare_all(line, pattern,  word) {
    while (match(line, pattern)) {
        word = substr(line, RSTART, RLENGTH)
        line = substr(line, RSTART + RLENGTH)
        sub(/[ ({,=:]*$/, "", word); sub(/^.* /, "", word)
        declared[word] = 1
    }
}

function read_code(line,  k, n, part) {
    n = split(line, part, "`")
    for (k = 2; k < n && FILENAME !~ /^docs/; k += 2) if (part[k] ~ /\//) paths_in(part[k])
    if (FILENAME ~ /\.antt$/) {
        sub(/(^|[ \t])--.*/, "", line)
        has_words(line, "[][ \t(){};,.\"]+")
        sub(/^ */, "", line)
        while (sub(/^(pub|abbrev|unfoldable|private|opaque) +/, "", line)) ;
        if (!sub(/^(record|data|module) +/, "", line) && line !~ /^[^ ]+ : /) return
        sub(/ .*/, "", line)
        declared[line] = 1
        stands_here(line)
        return
    }
    sub(FILENAME ~ /\.(rt|rs|h|c|cpp)$/ ? "//.*" : "(^|[ \t])#.*", "", line)
    has_words(line, "[^A-Za-z0-9_]+")
    has_words(line, "[^A-Za-z0-9_-]+")
    if (FILENAME !~ /\.(rt|rs|h|py)$/) return
    declare_all(line, "(fn|const|struct|enum|mod|type|static|trait|def|class|requires|ensures) +[A-Za-z_][A-Za-z0-9_]*")
    declare_all(line, "[A-Za-z_][A-Za-z0-9_]* *:")
    declare_all(line, FILENAME ~ /\.h$/ ? "[A-Za-z_][A-Za-z0-9_]*" : "^ +[A-Z][A-Za-z0-9]*( *[({,=]|$)")
}

# ---- paths

function is_path(word) {
    if (word !~ /[A-Za-z]/ || word ~ /[^A-Za-z0-9_.*\/-]/) return 0
    return word ~ /\// || word ~ /\.(antt|rt|rs|h|c|cpp|md|py|awk|txt|toml|edit|requests|answers)$/
}

# What a word means from a folder, if it is there, and nothing else. The edits meant are cited, but those of any crate.
function from(base, word,  path, pattern, count, k) {
    path = base == "" ? word : base "/" word
    if (path !~ /\*/) {
        if (!(path in there)) path = path ".edit"
        if (!(path in there)) return ""
        cite(path)
        return path
    }
    pattern = path; gsub(/\./, "\\.", pattern); gsub(/\*/, "[^/]*", pattern)
    for (k = 1; k <= files; k++) if (list[k] ~ "^" pattern "(\\.edit)?$") {
        count++
        path = list[k]
        if (folder(word) !~ /\*/) cite(path)
    }
    return count > (word ~ /\*/) ? path : ""
}

function cite(path) { if (FILENAME == claims) cited[path] = 1 }

function resolved(word,  base, path, k) {
    sub(/^\.\//, "", word)
    if (sub(/\/$/, "", word) && word in of_crates) return "crates"
    if ((path = from("crates", word)) != "") return path
    for (base = FILENAME; base != ""; ) {
        base = folder(base)
        if ((path = from(base, word)) != "") return path
    }
    for (k = bases; k > 0; k--) if ((path = from(named[k], word)) != "") return path
    return ""
}

# Of a span's words those that are paths have to be there; the last one's place, or nothing.
function paths_in(span,  k, n, word, path) {
    n = split(span, word, " ")
    for (k = 1; k <= n; k++) {
        gsub(/^[^A-Za-z0-9_.*\/]+|[^A-Za-z0-9_*\/]+$/, "", word[k])
        if (!is_path(word[k]) || word[k] ~ /(^|\/)(target|out)(\/|$)|^\/dev\//) continue
        citations++
        path = resolved(word[k])
        if (path == "") { finding(word[k], "no such path"); continue }
        named[++bases] = path; named[++bases] = folder(path)
        if (match(path, /^crates\/[^\/]*/)) named[++bases] = substr(path, 1, RLENGTH)
    }
    return path
}

# ---- names

function matches(word, known,  pattern, name, count) {
    if (word !~ /\*/) return word in known
    pattern = word; gsub(/\*/, ".*", pattern)
    for (name in known) if (name ~ "^" pattern "$") count++
    return count > 1
}

function name_cited(word,  known) {
    if (FILENAME == claims && !matches(word, declared) && matches(word, editions)) { edit_cited(word); return }
    citations++
    known = matches(word, declared) || (FILENAME == claims ? word ~ /^(requires|ensures|mut|unreachable)$/ : matches(word, said))
    if (!known) finding(word, FILENAME == claims ? "no code declares this" : "the code has no such word")
    else if (word !~ /\*/) pending[++names] = word
}

function names_in(span,  all, k, n, word) {
    if (span in declared) { name_cited(span); return }
    all = span !~ / / || span ~ /::\{/
    n = split(span, word, /[^A-Za-z0-9_\047*-]+/)
    for (k = 1; k <= n; k++) {
        sub(/^-+/, "", word[k])
        if (word[k] ~ /[A-Za-z]/ && word[k] !~ /^[0-9]/ && (all || word[k] ~ /_|[a-z0-9][A-Z]/)) name_cited(word[k])
    }
}

# An edit by its name alone: of the folder named before it, or of whatever crate has it.
function edit_cited(word,  base) {
    citations++
    base = edits_of == "" ? "crates/*/must-fail" : edits_of
    if (from(base, word) == "") finding(word, "no such edit in " base)
    else if (edits_of == "" && editions[word] > 1) finding(word, "more than one crate has this edit")
}

# Names that stand right before paths stand in one of these.
function compare_places(  k, p, found) {
    for (k = 1; k <= names && places; k++) {
        for (p = found = 0; p < places && !found; ) found = (place[++p], pending[k]) in stands
        if (!found) finding(pending[k], "not in " place[1])
    }
    names = places = 0
}

# ---- documents

function span_read(span, before,  path) {
    if (span ~ /\// || is_path(span)) {
        path = paths_in(span)
        if (path ~ /must-fail$/) edits_of = path
        else if (path ~ /must-fail\//) edits_of = folder(path)
        if (span ~ / / || path == "") { compare_places(); return }
        if (places ? before ~ /^(, | and )$/ : before ~ /^,? (\(|in |of )$/) place[++places] = path
        else compare_places()
        return
    }
    if (places || before !~ /^(, | and )$/) compare_places()
    if (FILENAME == claims && cell == edits_column && !(span in there) && !(("crates/" span) in there)) edit_cited(span)
    else names_in(span)
}

# The column of edits, and the folder of edits that its head names.
function read_head(line,  k, n, part) {
    edits_column = -1; head_folder = ""
    n = split(line, part, "|")
    for (k = 2; k <= n; k++) if (part[k] ~ /^ *edit/) {
        edits_column = k - 1
        if (match(part[k], /`[^`]*must-fail`/)) head_folder = resolved(substr(part[k], RSTART + 1, RLENGTH - 2))
    }
}

function read_document(line,  k, n, part) {
    if (line ~ /^```/) fenced = !fenced
    if (fenced || line ~ /^```/) return
    if (line ~ /^#/) bases = 0
    if (line !~ /^\|/) edits_column = -1
    else if (!in_table) read_head(line)
    in_table = line ~ /^\|/
    cell = 0; edits_of = ""
    n = split(line, part, "`")
    if (n > 0 && n % 2 == 0) finding("`", "this code span does not end on its line")
    for (k = 1; k <= n; k++) {
        if (k % 2 == 0) { span_read(part[k], part[k - 1]); continue }
        if (part[k] !~ /\|/) continue
        compare_places()
        cell += gsub(/\|/, "|", part[k])
        edits_of = cell == edits_column ? head_folder : ""
    }
    compare_places()
}

# What is asked of every file; the code spans of documents are read apart.
function read_any(line,  rest, word) {
    if (match(line, /(^|[^A-Za-z0-9_.~*\/)}-])\/(work|tmp|root|home)([^A-Za-z0-9_-]|$)/))
        finding(substr(line, RSTART, 30), "a path of a machine")
    rest = line
    if (is_document()) gsub(/`[^`]*`/, "", rest)
    for (; match(rest, /[A-Za-z0-9_.\/-]*[A-Za-z0-9_-]\.md/); rest = substr(rest, RSTART + RLENGTH)) {
        word = substr(rest, RSTART, RLENGTH)
        if (resolved(word) == "" && !(word in document)) finding(word, "no document of this repository")
    }
    if (FILENAME !~ /\.md$/) return
    for (rest = line; match(rest, /\]\([^)# ]*/); rest = substr(rest, RSTART + RLENGTH)) {
        word = substr(rest, RSTART + 2, RLENGTH - 2)
        if (word == "" || word ~ /^[a-z]+:/) continue
        citations++
        if (from(folder(FILENAME), word) == "") finding(word, "this link leads nowhere")
    }
}

BEGIN { claims = "docs/CLAIMS.md" }
FILENAME == "-" || FILENAME == "" { enter($0); next }
FNR == 1 { bases = fenced = in_table = 0 }
{ read_any($0) }
is_document() { read_document($0); next }
FILENAME !~ /\.(md|edit)$/ { read_code($0) }

END {
    for (k = 1; k <= files; k++) if (list[k] ~ /\/must-fail\/.*\.edit$/ && !(list[k] in cited)) {
        print list[k] ": " claims " does not cite this edit"; findings++
    }
    if (findings) { print "names: " findings " of " citations " are not there"; exit 1 }
    print "names: " citations " names and paths, all there"
}
