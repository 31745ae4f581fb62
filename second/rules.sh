#!/bin/sh
# rules.sh [FOLDER]
# Holds docs/RULES.md against the definitions of crates/meaning/specs and against what the other files cite. The
# repository is the one that this script stands in, or the folder named.
# A definition is every name that a file introduces at its margin: functions, types, tables and theorems, public or not.
# The definitions of a file of crates/meaning/proofs belong to the file of specs with the same name.
# A member is a constructor of a type or a field of a record. A section of a file is what follows a heading '## ..' with
# the file's path in backquotes, up to the next such heading; indented lines are no part of it.
# Each of these counts as one:
#   each file has just one section; the sections stand in the order of Lib.antt, which lists every file; headings are
#   numbered 1, 2, 3 and so on;
#   each definition is named in backquotes in the section of its file, once; each member is named there in italics;
#   in each section nothing else stands in backquotes or in italics, and elsewhere no definition does;
#   each heading of document 01 that a file quotes is found in a heading;
#   each request of document 02 that a file cites, and each up to the last that landed (last_request in hec1), has its
#   row; the row says 'not landed' if it is behind that, and else names a file that has a section;
#   each path, each file of definitions and each link that stands in docs/RULES.md is there.
# The last line is 'N passed, M failed', and the exit status agrees with it. What is wrong is told before it.
set -u
root=${1:-$(CDPATH="" cd -- "$(dirname -- "$0")/.." && pwd -P)} || exit 2
cd -- "$root" || exit 2
specs=crates/meaning/specs
proofs=crates/meaning/proofs
rules=docs/RULES.md
for file in "$rules" "$specs/Lib.antt" "$proofs/Lib.antt" hec1; do
    if [ ! -r "$file" ]; then
        echo "rules.sh: no $file" >&2
        exit 2
    fi
done

set --
for file in crates/*/*/*.antt crates/*/*/*/*.antt crates/*/*/*/*/*.antt crates/*/src/*.rt second/*.c second/*.h second/*.sh second/*.md \
    second/figures/README.md docs/*.md docs/changes/*.md README.md hec1 test bench; do
    if [ -f "$file" ]; then set -- "$@" "$file"; fi
done
said=$(awk -v specs="$specs" -v rules="$rules" '
    function check(holds, words) {
        if (holds) passed++
        else { failed++; print words }
    }
    function base(path) {
        sub(/.*\//, "", path)
        sub(/\.antt$/, "", path)
        return path
    }
    function define(name) {
        if (!((file, name) in defined)) {
            defined[file, name] = 1
            anywhere[name] = 1
            defs[file] = defs[file] " " name
        }
    }

    # headings of document 01 that a text quotes, in either kind of quotes; what is left open is carried to the next line
    function look_for_titles(text,    at, mark, rest, end, c) {
        while ((at = index(text, "ocument 01, ")) > 0) {
            rest = substr(text, at + 12)
            mark = substr(rest, 1, 1)
            if (mark != "\"" && mark != "\047") { text = rest; continue }
            for (end = 2; end <= length(rest); end++) {
                c = substr(rest, end + 1, 1)
                if (substr(rest, end, 1) == mark && (mark == "\"" || c !~ /[A-Za-z0-9]/)) break
            }
            if (end > length(rest)) {
                if (length(rest) < 120) carried = substr(text, at)
                return
            }
            title = substr(rest, 2, end - 2)
            if (!(title in quoted)) quoted[title] = FILENAME
            text = substr(rest, end + 1)
        }
        if (text ~ /[Dd]ocument$/) carried = "document"
        else if (text ~ /[Dd]ocument 01,$/) carried = "document 01,"
    }
    # requests that a text cites: CR 3, request 3, requests 3 and 6, CR 3 to CR 7
    function look_for_requests(text,    many, n, m) {
        while (match(text, /(CR|[Rr]equests?) [0-9]+/)) {
            many = substr(text, RSTART, RLENGTH)
            text = substr(text, RSTART + RLENGTH)
            n = many
            sub(/.* /, "", n)
            n = m = n + 0
            if (match(text, /^ to (CR |request )?[0-9]+/) || (many ~ /requests/ && match(text, /^ and [0-9]+/))) {
                m = substr(text, 1, RLENGTH)
                if (m ~ /^ and/) n = m
                sub(/.* /, "", m)
                sub(/.* /, "", n)
                m += 0
                cite(substr(many, index(many, " ") + 1) + 0)
            }
            for (n += 0; n <= m; n++) cite(n)
        }
    }
    function cite(n) { if (n > 0 && !(n in cited)) cited[n] = FILENAME }

    part == "lib" && $1 == "pub" && $2 == "mod" { order[++count] = $3; listed[$3] = 1 }

    part == "hec1" && /^last_request=[0-9]+$/ { last = substr($0, 14) + 0 }

    # the names that a file of definitions introduces
    part == "specs" {
        if (FNR == 1) {
            file = base(FILENAME)
            inside = module = 0
            if (file != "Lib" && !(file in listed)) { order[++count] = file; unlisted = unlisted " " file }
        }
        if (file == "Lib" || $0 ~ /^[ \t]*(--.*)?$/) next
        if ($0 ~ /^[^ \t]/) { inside = 0; module = ($1 == "module") }
        if (inside) {
            if ($0 ~ /^  [^ ].* : /)
                for (i = 1; $i != ":"; i++) if ($i != "pub") members[file] = members[file] " " $i
            next
        }
        if ($1 ~ /^(use|infix|infixl|infixr|unfolding|module)$/ || ($0 ~ /^[ \t]/ && !module)) next
        type = 0
        for (i = 1; $i ~ /^(pub|abbrev|unfoldable|data|record)$/; i++) if ($i ~ /^(data|record)$/) type = 1
        if (i > 1 || $2 == ":") define($i)
        else if ($0 !~ /=/ && !module) strange = strange "\n" FILENAME ":" FNR ": " $0
        inside = type
    }

    # what docs/RULES.md names, and where
    part == "rules" {
        if ($0 ~ /^#/) {
            headings = headings "\n" $0
            if ($0 ~ /^## /) {
                section = ""
                n = split($0, piece, "`")
                if (n == 3 && index(piece[2], specs "/") == 1) {
                    section = base(piece[2])
                    sections[section]++
                    met = met " " section
                }
                if ($2 ~ /^[0-9]+\.$/) { if ($2 != ++numbers ".") misnumbered = misnumbered " " $2 }
                else if (section != "") misnumbered = misnumbered " " section
            }
            next
        }
        if ($0 ~ /^\| CR [0-9]+ \(request [0-9]+\) \|/) row[$3 + 0] = row[$3 + 0] $0
        n = split($0, piece, "`")
        if ($0 ~ /^    /) {
            if (n > 1) stray[section] = stray[section] " line " FNR ";"
            next
        }
        if (n > 0 && n % 2 == 0) stray[section] = stray[section] " line " FNR ";"
        text = piece[1]
        for (i = 2; i <= n; i++)
            if (i % 2) text = text " " piece[i]
            else if (section != "") {
                named[section, piece[i]]++
                if (!((section, piece[i]) in defined)) stray[section] = stray[section] " `" piece[i] "`;"
            } else if (piece[i] in anywhere) stray[section] = stray[section] " `" piece[i] "`;"
        gsub(/\*\*/, "", text)
        while (section != "" && match(text, /\*[A-Za-z][A-Za-z0-9-]*\*/)) {
            word = substr(text, RSTART + 1, RLENGTH - 2)
            text = substr(text, RSTART + RLENGTH)
            shown[section, word] = 1
            if (index(members[section] " ", " " word " ") == 0) stray[section] = stray[section] " *" word "*;"
        }
    }

    # what the other files cite
    part == "cited" && FILENAME != rules && FILENAME != "second/rules.sh" {
        if (FNR == 1) carried = ""
        text = $0
        if (carried != "") {
            sub(/^[ \t]*(--|\/\/|\/\*|\*|#)*[ \t]*/, "", text)
            text = carried " " text
            carried = ""
        }
        if (text ~ /ocument/) look_for_titles(text)
        if (text ~ /CR [0-9]|equests? [0-9]/) look_for_requests(text)
    }

    END {
        check(strange == "", "not understood:" strange)
        check(unlisted == "", "not listed in Lib.antt:" unlisted)
        for (i = 1; i <= count; i++) {
            f = order[i]
            wanted = wanted " " f
            check(sections[f] == 1, f ".antt: " sections[f] + 0 " sections")
            n = split(defs[f], name, " ")
            check(n > 0, f ".antt: no definitions")
            all += n
            for (j = 1; j <= n; j++)
                check(named[f, name[j]] == 1, f ".antt: " name[j] " is named " named[f, name[j]] + 0 " times in its section")
            n = split(members[f], name, " ")
            for (j = 1; j <= n; j++) {
                check((f, name[j]) in shown, f ".antt: " name[j] " is not named in its section")
                if (!((f, name[j]) in seen)) { seen[f, name[j]] = 1; parts++ }
            }
            check(stray[f] == "", f ".antt: its section names what the file does not have:" stray[f])
        }
        check(stray[""] == "", "definitions named outside the sections of files:" stray[""])
        check(met == wanted, "the sections stand in another order than Lib.antt has:" met)
        check(numbers > 0 && misnumbered == "", "headings out of number:" misnumbered)
        for (title in quoted) { titles++; check(index(headings, title) > 0, "no heading \047" title "\047, cited in " quoted[title]) }
        check(titles > 0, "no heading of document 01 is cited anywhere")
        check(last > 0, "no last_request in hec1")
        for (n = 1; n <= last; n++) if (!(n in cited)) cited[n] = "no file"
        for (key in cited) {
            n = key + 0
            requests++
            known = 0
            for (i = 1; i <= count; i++) if (index(row[n], order[i] ".antt")) known = 1
            check(row[n] != "" && (n > last ? row[n] ~ /not landed/ : row[n] !~ /not landed/ && known), "the row of request " n ", cited in " cited[n] ": " (row[n] == "" ? "there is none" : row[n]))
        }
        print all + 0 " definitions and " parts + 0 " members of " count + 0 " files, " titles + 0 " headings and " requests + 0 " requests cited"
        print passed + 0, failed + 0
    }' part=lib "$specs/Lib.antt" part=hec1 hec1 part=specs "$specs"/*.antt "$proofs"/*.antt part=rules "$rules" part=cited "$@") || exit 2
newline='
'
counts=${said##*"$newline"}
passed=${counts% *}
failed=${counts#* }
echo "${said%"$newline"*}"

# What docs/RULES.md points to: paths from the root, files of definitions by their names, links from docs/
paths=$(awk -v specs="$specs" '
    {
        text = $0
        while (match(text, /\]\([^)]*\)/)) {
            print "docs/" substr(text, RSTART + 2, RLENGTH - 3)
            text = substr(text, 1, RSTART - 1) " " substr(text, RSTART + RLENGTH)
        }
        while (match(text, /(crates|second|docs|examples)\/[A-Za-z0-9_.\/-]*[A-Za-z0-9_\/-]/)) {
            print substr(text, RSTART, RLENGTH)
            text = substr(text, 1, RSTART - 1) " " substr(text, RSTART + RLENGTH)
        }
        while (match(text, /[A-Za-z0-9]+\.antt/)) {
            print specs "/" substr(text, RSTART, RLENGTH)
            text = substr(text, RSTART + RLENGTH)
        }
    }' "$rules") || exit 2
for path in $paths; do
    if [ -e "$path" ]; then
        passed=$((passed + 1))
    else
        failed=$((failed + 1))
        echo "$rules: no $path"
    fi
done

echo "$passed passed, $failed failed"
[ "$failed" -eq 0 ] && [ "$passed" -gt 0 ]
