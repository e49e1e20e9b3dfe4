#!/bin/sh
# Compares what the documents name with the source: clauses and calls, fields of records, crates and what
# they stand on, files, and the counts of tests and edits. It fails where a name is missing, and says where.
#
#   tests/names.sh          compares
#   tests/names.sh counts   prints the table of tests and edits as docs/TESTING.md has it
#   tests/names.sh unsaid   lists the clauses of public calls that docs/PROMISES.md does not name
#
# A name is cited in a code span. `call: one, two` are clauses of a call, or fields of a record of specs/;
# the call may stand behind its type, and that behind its crate, as in `edge_disk::MemoryDisk::read: fails`.
# In a section of docs/PROMISES.md whose heading begins with a crate, each span in the first column of a
# table is such a name of that crate, also without a clause; so is each in a crate's row of README.md, and
# each in the first column of docs/DEFINITIONS.md, of any crate.
set -eu
cd "$(dirname "$0")/.."

work=$(mktemp -d)
trap 'rm -rf "$work"' EXIT
trap 'exit 1' HUP INT TERM

documents="README.md docs/*.md"

# ---- what the source has

# Lines 'call CRATE TYPE NAME', 'clause CRATE TYPE NAME CLAUSE', 'impl CRATE TYPE TRAIT' and 'public CRATE
# TYPE NAME CLAUSE'; a name with no type has '-'.
index_code() {
    awk '
    function bare(text) { while (gsub(/<[^<>]*>/, "", text)) {} return text }
    function last(path) { sub(/.*::/, "", path); return path }
    FNR == 1 { split(FILENAME, part, "/"); crate = part[2]; type = "-"; trait = ""; call = "" }
    /^[ \t]*\/\// { next }
    /^}/ { type = "-"; trait = "" }
    /^(pub )?trait / {
        type = bare($0); sub(/^(pub )?trait /, "", type); sub(/[^A-Za-z0-9_].*/, "", type); trait = type
        print "call", crate, "-", type
    }
    /^impl/ {
        text = $0; gsub(/->/, "", text); text = bare(text); sub(/^impl */, "", text); sub(/ *\{.*/, "", text)
        sub(/ where .*/, "", text); trait = ""
        if (text ~ / for /) { trait = text; sub(/ for .*/, "", trait); sub(/.* for /, "", text) }
        type = last(text); trait = last(trait)
        if (trait != "") print "impl", crate, type, trait
    }
    /^(pub(\([a-z]*\))? )?(struct|enum|const|type) / {
        text = $0; sub(/^(pub(\([a-z]*\))? )?(struct|enum|const|type) /, "", text); sub(/[^A-Za-z0-9_].*/, "", text)
        print "call", crate, "-", text
    }
    /^ *ghost [a-z_0-9]+:/ {
        text = $0; sub(/^ *ghost /, "", text); sub(/:.*/, "", text); print "call", crate, type, text
    }
    /(^| )fn [a-z_0-9]+/ {
        call = $0; open = (call ~ /^ *pub / || trait != ""); sub(/.*fn /, "", call); sub(/[^a-z_0-9].*/, "", call)
        print "call", crate, type, call
    }
    /^ *ensures [a-z_0-9]+ *\{/ {
        text = $0; sub(/^ *ensures /, "", text); sub(/[^a-z_0-9].*/, "", text)
        print "clause", crate, type, call, text
        if (open) print "public", crate, type, call, text
    }
    ' crates/*/src/*.rt
}

# The same of the definitions: a record is a call, and its fields are its clauses.
index_specs() {
    awk '
    FNR == 1 { split(FILENAME, part, "/"); crate = part[2]; record = ""; depth = 0 }
    /^[ \t]*--/ { next }
    /[^ \t]/ { match($0, /[^ \t]/); if (RSTART <= depth) record = "" }
    /^ *((abbrev|unfoldable) )?pub / {
        match($0, /[^ \t]/); indent = RSTART
        text = $0; sub(/^ *((abbrev|unfoldable) )?pub /, "", text)
        if (record != "" && $0 ~ /^ *pub /) { sub(/[ :].*/, "", text); print "clause", crate, "-", record, text; next }
        isrecord = (text ~ /^record /)
        sub(/^(record|data) /, "", text); sub(/[ :(].*/, "", text)
        print "call", crate, "-", text
        if (isrecord) { record = text; depth = indent }
    }
    ' $(find crates/*/specs -name '*.antt' | sort)
}

{ index_code; index_specs; } | sort -u >"$work/source"

# ---- what the documents name

# Lines 'FILE:LINE CRATE TYPE NAME CLAUSE', where CRATE and TYPE may be '-' for any, and CLAUSE for none.
cited() {
    awk '
    function cite(span, crate,    head, tail, n, i, names, type) {
        head = span; tail = ""
        if (span ~ /: /) { head = span; sub(/: .*/, "", head); tail = span; sub(/^[^ ]*: /, "", tail) }
        if (head ~ /^edge_[a-z]+::/) { crate = head; sub(/::.*/, "", crate); sub(/^edge_[a-z]+::/, "", head) }
        type = "-"
        if (head ~ /::/) { type = head; sub(/::[A-Za-z_0-9]+$/, "", type); sub(/.*::/, "", head) }
        where = FILENAME ":" FNR
        if (tail == "") { print where, crate, type, head, "-"; return }
        n = split(tail, names, ", ")
        for (i = 1; i <= n; i++) print where, crate, type, head, names[i]
    }
    function is_name(span) { return span ~ /^([A-Za-z_0-9]+::)*[A-Za-z_][A-Za-z_0-9]*$/ }
    function has_clause(span) { return span ~ /^([A-Za-z_0-9]+::)*[A-Za-z_0-9]+: [a-z_0-9]+(, [a-z_0-9]+)*$/ }
    function spans(text, crate, all,    n, i, piece) {
        n = split(text, piece, "`")
        for (i = 2; i <= n; i += 2) if (has_clause(piece[i]) || (all && is_name(piece[i]))) cite(piece[i], crate)
    }
    FNR == 1 { crate = "-"; code = 0 }
    /^```/ { code = !code }
    code { next }
    FILENAME ~ /PROMISES/ && /^## / { crate = "-" }
    FILENAME ~ /PROMISES/ && /^## `edge[a-z_]*`/ { crate = $0; sub(/^## `/, "", crate); sub(/`.*/, "", crate) }
    FILENAME ~ /README/ && /^\| `edge[a-z_]*` \|/ {
        row = $0; sub(/^\| `/, "", row); sub(/`.*/, "", row)
        rest = $0; sub(/^\| `[a-z_]*` \|/, "", rest); spans(rest, row, 1); next
    }
    (crate != "-" || FILENAME ~ /DEFINITIONS/) && /^\|/ {
        first = $0; sub(/^\|/, "", first); rest = first; sub(/\|.*/, "", first); sub(/^[^|]*\|/, "", rest)
        spans(first, crate, 1); spans(rest, crate, 0); next
    }
    { spans($0, crate, 0) }
    ' $documents
}

cited >"$work/cited"

# Lines 'FILE:LINE ...' of those that the source does not have. A clause that an implementation does not
# write down is that of its trait.
missing() {
    awk '
    function has(crate, type, name, clause) {
        if (clause == "-") return (crate, type, name) in call
        return (crate, type, name, clause) in there
    }
    NR == FNR {
        if ($1 == "call") { put(call, $2, $3, $4) }
        if ($1 == "clause") { put4($2, $3, $4, $5) }
        if ($1 == "impl") traits[$3] = traits[$3] " " $4
        next
    }
    {
        found = has($2, $3, $4, $5)
        n = split(traits[$3], up, " ")
        for (i = 1; i <= n && !found; i++) found = has("-", up[i], $4, $5)
        if (!found) { shown = ($3 == "-" ? "" : $3 "::") $4 ($5 == "-" ? "" : ": " $5)
            print $1 ": " ($2 == "-" ? "no crate" : $2) " has no `" shown "`" }
    }
    function put(array, c, t, n) { array[c, t, n]; array["-", t, n]; array[c, "-", n]; array["-", "-", n] }
    function put4(c, t, n, x) { there[c, t, n, x]; there["-", t, n, x]; there[c, "-", n, x]; there["-", "-", n, x] }
    ' "$work/source" "$work/cited"
}

# ---- crates

# Lines 'CRATE DEP DEP ..', with the deps that are crates of the repository.
crates() {
    awk '!/^#/ && NF { name = $1; sub(/:$/, "", name); line = name
        for (i = 2; i <= NF; i++) if ($i ~ /^edge_/) { dep = $i; sub(/^edge_/, "", dep); line = line " " dep }
        print line }' crates.txt | sort
}

crates >"$work/crates"
cut -d' ' -f1 "$work/crates" >"$work/names"

# The crates of the rows of a document's tables.
rows() {
    sed -n 's/^| `\(edge[a-z_]*\)` |.*/\1/p' "$1" | sort
}

# The same as $work/crates from the table of docs/ARCHITECTURE.md: its third column has what a crate stands on.
stands() {
    awk -F' *[|] *' '/^\| `edge[a-z_]*` \|/ { name = $2; gsub(/`/, "", name); deps = $4; gsub(/,/, "", deps)
        print (deps == "none" ? name : name " " deps) }' docs/ARCHITECTURE.md | sort
}

# Each line with its words behind the first in order.
ordered() {
    awk '{ n = 0; for (i = 2; i <= NF; i++) word[++n] = $i
        for (i = 1; i < n; i++) for (j = i + 1; j <= n; j++) if (word[j] < word[i]) { t = word[i]; word[i] = word[j]; word[j] = t }
        line = $1; for (i = 1; i <= n; i++) line = line " " word[i]; print line }'
}

# Says what stands in one list alone.
compare() {
    comm -23 "$1" "$2" | sed "s|^|$3: missing: |"
    comm -13 "$1" "$2" | sed "s|^|$3: not in crates.txt: |"
}

sections() {
    sed -n 's/^## `\(edge[a-z_]*\)`.*/\1/p' docs/PROMISES.md | sort
}

# ---- files

# Whether a path leads somewhere: from the top, from crates/ or docs/, or in a crate.
leads() {
    for place in "$1" "crates/$1" "docs/$1" crates/*/"$1"; do
        [ -e "$place" ] && return
    done
    return 1
}

# Lines 'FILE:LINE: no file NAME' for each path in a code span or a link that leads nowhere.
absent() {
    grep -no '`[A-Za-z_0-9./-]*/[A-Za-z_0-9.-]*\.\(rt\|antt\|sh\|md\|img\|txt\)`' $documents | tr -d '`' |
        while IFS=: read -r file line path; do
            leads "$path" || echo "$file:$line: no file $path"
        done
    grep -no '](\([A-Za-z_0-9./-]*\)[)#]' $documents | sed 's/](//; s/[)#]$//' |
        while IFS=: read -r file line path; do
            [ -z "$path" ] || [ -e "$(dirname "$file")/$path" ] || echo "$file:$line: no file $path"
        done
    awk -F' *[|] *' '/^\| `edge[a-z_]*` \|/ { name = $2; gsub(/`/, "", name); n = split($5, module, "`")
        for (i = 2; i <= n; i += 2) print FNR, "crates/" name "/src/" module[i] ".rt" }' docs/ARCHITECTURE.md |
        while read -r line path; do
            [ -e "$path" ] || echo "docs/ARCHITECTURE.md:$line: no file $path"
        done
}

# ---- counts

# The table of docs/TESTING.md: tests and edits of each crate, and in all.
counts() {
    tests_in_all=0 edits_in_all=0
    while read -r name; do
        tests=$(cat $(find "crates/$name/src" -name '*.rt') | grep -c '^ *#\[test\]' || true)
        edits=$(find "crates/$name" -path '*/must-fail/*.edit' | grep -c . || true)
        tests_in_all=$((tests_in_all + tests)) edits_in_all=$((edits_in_all + edits))
        echo "| \`$name\` | $tests | $edits |"
    done <"$work/names"
    echo "| in all | $tests_in_all | $edits_in_all |"
}

# ----

case ${1-compare} in
counts) counts; exit ;;
unsaid)
    grep PROMISES "$work/cited" | awk '
    NR == FNR { said[$2, $3, $4, $5]; said["-", $3, $4, $5]; next }
    $1 == "impl" { trait[$2, $3] = trait[$2, $3] " " $4 }
    $1 == "public" {
        found = ($2, $3, $4, $5) in said || ($2, "-", $4, $5) in said
        n = split(trait[$2, $3], up, " ")
        for (i = 1; i <= n; i++) if (("-", up[i], $4, $5) in said) found = 1
        if (!found) print $2, ($3 == "-" ? "" : $3 "::") $4 ": " $5
    }
    ' - "$work/source"
    exit ;;
compare) ;;
*) echo "usage: tests/names.sh [counts | unsaid]" >&2; exit 2 ;;
esac

{
    missing
    rows README.md >"$work/readme"
    compare "$work/names" "$work/readme" README.md
    sections >"$work/sections"
    compare "$work/names" "$work/sections" docs/PROMISES.md
    ordered <"$work/crates" | sort >"$work/wanted"
    stands | ordered | sort >"$work/stands"
    compare "$work/wanted" "$work/stands" docs/ARCHITECTURE.md
    absent
    counts >"$work/counts"
    grep -vxFf docs/TESTING.md "$work/counts" | sed 's/^/docs\/TESTING.md: missing: /' || true
    # A document whose citations are no longer read would pass.
    while read -r name; do
        awk -v crate="$name" '$2 == crate && $1 ~ /PROMISES/ { n++ } END { exit n > 0 ? 0 : 1 }' "$work/cited" ||
            echo "docs/PROMISES.md: nothing is cited of $name"
    done <"$work/names"
} >"$work/wrong"

if [ -s "$work/wrong" ]; then
    cat "$work/wrong" >&2
    echo "names.sh: $(grep -c . "$work/wrong") names are missing" >&2
    exit 1
fi
echo "names.sh: $(grep -c . "$work/cited") names of clauses and calls, $(grep -c . "$work/names") crates, all there"
