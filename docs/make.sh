#!/bin/sh
# Makes docs/DEFINITIONS.md, the index of all definitions, and the table of docs/GATE.md from the tree.
#
#   sh docs/make.sh          writes both
#   sh docs/make.sh check    says which of them the tree has left behind, and fails where one is
set -eu
cd "$(dirname "$0")/.."

# A row for each public definition of a spec file: its name, and the comment in front of it.
definitions_of() {
    awk '
        /^ *infix/ { next }
        /^ *-- / { line = $0; sub(/^ *-- */, "", line); said = said (said == "" ? "" : " ") line; next }
        {
            line = $0
            sub(/^ +/, "", line)
            sub(/^(abbrev|unfoldable) /, "", line)
            if (line ~ /^pub (record |data |abbrev )?[^ ]+ /) {
                name = line
                sub(/^pub (record |data |abbrev )?/, "", name)
                sub(/ .*/, "", name)
                if (line !~ /^pub (use|mod) / && !(name in seen) && (line ~ /^pub (record|data) / || $0 ~ /^ *(abbrev|unfoldable) pub /)) {
                    seen[name] = 1
                    gsub(/\|/, "\\|", said)
                    gsub(/\|/, "\\|", name)
                    printf "| `%s` | %s |\n", name, said
                }
            }
            said = ""
        }' "$1"
}

index() {
    echo "# Definitions"
    echo
    echo "What contracts cite, crate by crate and file by file. This page is made by \`docs/make.sh\` from the comments of the"
    echo "definitions; \`docs/ARCHITECTURE.md\` says which of these files a reader of the public clauses needs."
    for crate in crates/cpl_*; do
        for file in "$crate"/specs/*.antt; do
            [ -f "$file" ] || continue
            case "$file" in */Lib.antt) continue ;; esac
            rows="$(definitions_of "$file")"
            [ -n "$rows" ] || continue
            echo
            echo "## $(basename "$crate"), \`$(basename "$file")\`"
            echo
            awk '/^-- /{ sub(/^-- */, ""); print; next } { exit }' "$file"
            echo
            echo "| word | what it says |"
            echo "|---|---|"
            echo "$rows"
        done
    done
}

# A row for each crate: its lines of code, its edits, and the minutes that were measured.
gate() {
    echo "| crate | lines | edits | minutes | how the minutes were taken |"
    echo "|---|---|---|---|---|"
    sed -n 's/^\([a-z_0-9]*\):.*/\1/p' crates.txt | while read -r name; do
        lines="$(cat "crates/$name/src/"*.rt "crates/$name/src/"*/*.rt 2>/dev/null | wc -l | tr -d ' ')"
        edits="$(ls "crates/$name/must-fail" 2>/dev/null | wc -l | tr -d ' ')"
        minutes="$(sed -n "s/^$name  *\([^ ]*\)  *\(.*\)/\1 | \2/p" docs/gate-minutes.txt)"
        echo "| $name | $lines | $edits | ${minutes:-- | not measured} |"
    done
    lines="$(find crates -path '*/out/*' -prune -o -path '*/src/*' -name '*.rt' -exec cat {} + | wc -l | tr -d ' ')"
    edits="$(find crates -path '*/out/*' -prune -o -path '*/must-fail/*' -name '*.edit' -print | wc -l | tr -d ' ')"
    echo "| all | $lines | $edits | $(sed -n 's/^all  *\([^ ]*\)  *\(.*\)/\1 | \2/p' docs/gate-minutes.txt) |"
}

# The page with its table made anew.
gate_page() {
    sed '/^| crate |/,$d' docs/GATE.md
    gate
    sed '1,/^| all |/d' docs/GATE.md
}

made="$(mktemp -d)"
trap 'rm -rf "$made"' EXIT
index > "$made/DEFINITIONS.md"
gate_page > "$made/GATE.md"
stale=0
for page in DEFINITIONS.md GATE.md; do
    if [ "${1:-}" = check ]; then
        if ! cmp -s "$made/$page" "docs/$page"; then
            echo "docs/$page isn't what the tree gives: run sh docs/make.sh"
            stale=1
        fi
    else
        cp "$made/$page" "docs/$page"
    fi
done
exit "$stale"
