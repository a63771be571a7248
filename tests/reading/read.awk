# Reads every file once and tells what a reader would stumble over; `run`, beside this file, says what that is and passes the exceptions.
# Names are split at blanks, brackets, dots and colons, so that `goal.returns` is two names; an operator `◌+◌` is used where `+` stands.

function fail(file, line, words) {
    printf "FAIL %s:%d %s\n", file, line, words
    failed++
    faulty += !(file in bad)
    bad[file] = 1
}

function indent_of(text) { return match(text, /[^ ]/) - 1 }

# the file that a module's path names, where it is ours: Rattle.rows.proofs.Row
function file_of(path, crate) {
    if (!sub(/^Rattle[.]/, "", path)) return ""
    crate = path
    sub(/[.].*/, "", crate)
    sub(/^[^.]*[.]/, "", path)
    gsub(/[.]/, "/", path)
    return "crates/" crate "/" path ".antt"
}

# what stands in a text where a name is used: of an operator `◌+◌` its last word
function shown(name, parts, n) {
    if (name !~ /^◌|◌$/) return name
    n = split(name, parts, "◌")
    return parts[n] == "" ? parts[n - 1] : parts[n]
}

# notes an import, `x` or `x as y`, or `self`, which is the path's last name
function import(name, path, parts) {
    if (name == "self") {
        name = path
        sub(/.*::/, "", name)
    }
    split(name, parts, " as ")
    imports++
    import_file[imports] = FILENAME
    import_line[imports] = FNR
    import_name[imports] = parts[1]
    import_as[imports] = name ~ / as / ? parts[2] : name
    import_from[imports] = file_of(path)
}

# notes the names on a line, and those of them that no block around the line defines
function read_names(text, words, n, i) {
    gsub(/\[\]/, " nil ", text)
    gsub(/[][(){},;:"`.]/, " & ", text)
    while (match(text, /[&!*][A-Za-z_]/)) text = substr(text, 1, RSTART) " " substr(text, RSTART + 1)
    gsub(/ nil /, " [] ", text)
    n = split(text, words, /[ \t]+/)
    for (i = 1; i <= n; i++) {
        used[FILENAME, words[i]] = 1
        if (!(words[i] in open_block)) cited[FILENAME, words[i]] = 1
    }
}

# a block is a name's type and what defines it; blocks inside it (a record's fields, what a `where` holds) are further in
function close_blocks(indent) {
    while (blocks > 0 && block_indent[blocks] >= indent) {
        delete open_block[block_name[blocks]]
        delete open_block[shown(block_name[blocks])]
        blocks--
    }
}

function open_law(name, indent) {
    close_blocks(indent)
    blocks++
    block_indent[blocks] = indent
    block_name[blocks] = name
    open_block[name] = open_block[shown(name)] = 1
    if (blocks > 1) return
    laws++
    law_file[laws] = FILENAME
    law_line[laws] = FNR
    law_name[laws] = name
}

FNR == 1 {
    files++
    kind = FILENAME ~ /[.]rt$/ ? "rt" : FILENAME ~ /[.]antt$/ ? "antt" : "other"
    close_blocks(0)
    function_line = 0
    script = /^#!\//
}
FNR == 1 + script && !/^(\/\/|\/\*|--|#[^!]|""").*[A-Za-z]/ { fail(FILENAME, FNR, "does not open with a line on what it is") }
FNR == 301 && FILENAME != adopted && FILENAME !~ /[.]md$/ { fail(FILENAME, FNR, "more than 300 lines") }
kind == "other" { next }

# comments use and cite nothing
{
    code = $0
    sub(kind == "rt" ? "//.*" : "(^| )-- .*", "", code)
    if (code ~ /^ *$/) next
}

kind == "rt" && code ~ /^ *(pub(\(crate\))? )?(extern "C" )?fn / {
    function_line = FNR
    function_indent = indent_of(code)
}
kind == "rt" && function_line && code ~ /^ *}/ && indent_of(code) == function_indent {
    if (FNR - function_line >= 45) fail(FILENAME, function_line, "a function of " FNR - function_line + 1 " lines")
    function_line = 0
}

# a function's attribute cites too: #[tactic(auto, using(a::proofs::M::law, ..), unfolding(a::specs::M::word, ..))]
kind == "rt" && code ~ /#\[tactic[(]/ {
    n = split(code, parts, /[(), \]]+/)
    for (i = 1; i <= n; i++) {
        if (split(parts[i], steps, "::") != 4) continue
        crate = steps[1] == "crate" ? FILENAME : "crates/" steps[1]
        if (steps[1] == "crate") sub(/\/src\/.*/, "", crate)
        cited[crate "/" steps[2] "/" steps[3] ".antt", steps[4]] = 1
    }
}

# imports: use A.B.{x, y}, ghost use A.B.{x, y}; use A.B as x; use a::b
code ~ /^(ghost )?use .*[{]/ {
    path = code
    sub(/^(ghost )?use /, "", path)
    sub(/[.:]*[{].*/, "", path)
    sub(/^[^{]*[{]/, "", code)
    sub(/[}].*/, "", code)
    n = split(code, parts, /, */)
    for (i = 1; i <= n; i++) import(parts[i], path)
    next
}
code ~ /^use .* as / { import($NF, ""); next }
code ~ /^(pub )?use .*::/ {
    gsub(/.*::|;.*/, "", code)
    import(code, "")
    next
}

# laws and definitions, beside those of a function's own proof
kind == "antt" && code ~ /^ *module / { close_blocks(indent_of(code)) }
kind == "antt" && FILENAME !~ /\/(Answers|Invariants)[.]antt$/ && code ~ /^ *((pub|abbrev|unfoldable) )*([^ (]+ : |(record|data|ruleset) )/ && code !~ /^ *let / {
    name = code
    gsub(/^ *((pub|abbrev|unfoldable) )*((record|data|ruleset) )?/, "", name)
    sub(/ .*/, "", name)
    open_law(name, indent_of(code))
}
{ read_names(code) }

END {
    for (i = 1; i <= imports; i++) {
        if (!((import_file[i], shown(import_as[i])) in used)) fail(import_file[i], import_line[i], "imports " import_as[i] " and does not use it")
        else cited[import_from[i], import_name[i]] = 1
    }
    n = split(also, parts, " ")
    for (i = 1; i <= n; i++) {
        if (parts[i] ~ /\//) named_file = parts[i]
        else cited[named_file, parts[i]] = 1
    }
    for (i = 1; i <= laws; i++) {
        if (law_file[i] !~ ends && !((law_file[i], law_name[i]) in cited) && !((law_file[i], shown(law_name[i])) in cited)) fail(law_file[i], law_line[i], "nothing cites " law_name[i])
    }
    printf "%d passed, %d failed\n", files - faulty, failed
    exit failed > 0
}
