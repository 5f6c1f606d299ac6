#!/usr/bin/env bash
# A fact that several files state has one home. This fails, naming the file and the fact, where another file says otherwise:
#   the wording of the refusals   home docs/RULES.md R3.1; estimator.h (the table of its first comment), estimator.hpp (`texts`)
#   the orders of checks          home docs/RULES.md R3.4; docs/CALLS.md (third column), estimator.h ("Refusals: .." up to the first
#                                 full stop or "where"), and in each of the three "Configuration" below stands for .., in this order.
#   which call a C function is    home docs/RULES.md R3.4; docs/CALLS.md ("C linkage")
#   the nine forms                home docs/READING.md: nine rows, whose names are in the code; no other page has the table
#   the edits that must fail      home crates/CRATE/must-fail/LABEL.edit; docs/CALLS.md ("The six useless builds": `CRATE/LABEL`, "Edits
#                                 that must fail": `CRATE`: LABEL, LABEL; what stands in parentheses is passed over)
# scripts/facts.sh [FOLDER]: of the repository, or of a copy of it.
set -euo pipefail
cd "${1:-$(dirname "$0")/..}"

rules=docs/RULES.md calls=docs/CALLS.md c=include/estimator.h cpp=include/estimator.hpp reading=docs/READING.md
differ=0
say() { echo "facts: $*" >&2; differ=1; }

# The cells of a table's rows in a file, from the first line that matches $2 to the next that matches $3, parted by tabs. Backticks go.
table() {
    awk -v from="$2" -v to="$3" '
        on && $0 ~ to { exit }
        $0 ~ from { on = 1 }
        on && /^\|/ && !/^\|---/ { gsub(/`/, ""); sub(/^\| */, ""); sub(/ *\|$/, ""); gsub(/ *\| */, "\t"); print }' "$1"
}

# The home's lines $3 and the file's lines $4 are a key, a tab and a text each: every key must have the same text in both.
same() { # WHAT FILE
    local line
    while read -r line; do say "$2: $1 $line"; done < <(awk -F '\t' -v home=$rules '
        NR == FNR { right[$1] = $2; keys[++n] = $1; next }
        { text[$1] = $2; if (!($1 in right)) keys[++n] = $1 }
        END {
            for (i = 1; i <= n; i++) {
                k = keys[i]
                if (!(k in text)) print k " is missing; " home " has \"" right[k] "\""
                else if (!(k in right)) print k ", \"" text[k] "\", is not in " home
                else if (right[k] != text[k]) print k " is \"" text[k] "\", and " home " has \"" right[k] "\""
            }
        }' <(printf '%s\n' "$3") <(printf '%s\n' "$4"))
}

# A file as one line, without the stars of a C comment.
joined() { sed 's/^ \*\/*//' "$1" | tr -s ' \n' '  '; }

# ---- refusals
# Numbers may be left out, but must rise.
rising() { # FILE NUMBERS
    sort -nuC <<<"$2" || say "$1: the refusals do not rise: $(xargs <<<"$2")"
}

refusals=$(table $rules '^\*\*R3\.1\*\*' '^\*\*R3\.2\*\*' | awk -F '\t' '$1 + 0 > 0 { print $1 "\t" $2 }')
[ -n "$refusals" ] || say "$rules: R3.1 has no table of refusals"
rising $rules "$(cut -f 1 <<<"$refusals")"

# " *   14  text", and what follows further in; what a refusal carries is told apart
in_c=$(awk '
    /^ \*\// { exit }
    /^ \* +[0-9]+  [^ ]/ { if (text != "") print text; n = $2; sub(/^ \* +[0-9]+ +/, ""); text = n "\t" $0; next }
    text != "" && /^ \*        *[^ ]/ { sub(/^ \* +/, ""); text = text " " $0; next }
    text != "" { print text; text = "" }' $c)
same refusal $c "$refusals" "$(sed 's/; carries .*//' <<<"$in_c")"
rising $c "$(cut -f 1 <<<"$in_c")"

# "; carries .." stands there for a number that carries something in every call that can
carrying=$(table $rules '^\*\*R3\.1\*\*' '^\*\*R3\.2\*\*' | awk -F '\t' '$1 + 0 > 0 && $3 != "" && $3 !~ /, in / { print $1 }' | xargs)
carrying_in_c=$(sed -n 's/\t.*; carries .*//p' <<<"$in_c" | xargs)
[ "$carrying" = "$carrying_in_c" ] || say "$c: refusals $carrying_in_c say what they carry, and in $rules $carrying do"

# "name = 14," in Reason, and {Reason::name, "text"} among the texts of `words`, where a string may be broken over lines; 0 is
# "accepted", and a name that Reason does not have stands for itself
reasons=$(sed -n '/^enum class Reason/,/^};/p' $cpp | sed -n 's/^ *\([a-z0-9_]*\) = \([0-9]*\),$/\1\t\2/p')
worded=$(sed -n '/ texts\[\] = {/,/^};/p' $cpp | tr '\n' ' ' | sed 's/" *"//g; s/}, */},\n/g' |
    sed -n 's/.*{Reason::\([a-z0-9_]*\), *"\([^"]*\)"},$/\1\t\2/p')
in_cpp=$(awk -F '\t' '
    NR == FNR { number[$1] = $2; next }
    { k = $1 in number ? number[$1] : $1; if (k != 0) print k "\t" $2 }' <(echo "$reasons") <(echo "$worded"))
same refusal $cpp "$refusals" "$in_cpp"
rising $cpp "$(cut -f 1 <<<"$in_cpp")"
numbers=$(cut -f 2 <<<"$reasons" | xargs)
stated=$(cut -f 1 <<<"$refusals" | xargs)
[ "$numbers" = "0 $stated" ] || say "$cpp: Reason has the numbers $numbers, and $rules $stated"

# ---- orders
orders=$(table $rules '^\*\*R3\.4\*\*' '^\*\*R3\.5\*\*' | sed 1d)
in_calls=$(table $calls '^\| call \| its record \| refusals in order' '^$' | sed 1d)
same 'order of' $calls "$(cut -f 1,3 <<<"$orders")" "$(awk -F '\t' '{ sub(/.*::/, "", $1); print $1 "\t" $3 }' <<<"$in_calls")"

# of each function, what its comment says between "Refusals: " and the first full stop or "where"
in_c=$(awk '
    /^\/\*/ { comment = "" }
    { line = $0; sub(/^ \* */, "", line); comment = comment " " line }
    /^uint32_t kan_/ {
        name = $2; sub(/\(.*/, "", name)
        if (!sub(/.* Refusals: /, "", comment)) comment = "-"
        sub(/(\.| where ).*/, "", comment); print name "\t" comment; comment = ""
    }' $c)
same 'order of' $c "$(awk -F '\t' '$2 != "" { print $2 "\t" $3 }' <<<"$orders")" "$in_c"

configuration=
for file in $rules $calls $c; do
    order=$(joined "$file" | sed -n 's/.*"Configuration" below stands for \([^.]*\), in this order\..*/\1/p')
    configuration=${configuration:-$order}
    [ -n "$order" ] || say "$file: does not say what \"Configuration\" stands for, in this order"
    [ "$order" = "$configuration" ] || say "$file: configuration is '$order', and $rules has '$configuration'"
done

same 'C function' $calls "$(awk -F '\t' '$2 != "" { print $2 "\t" $1 }' <<<"$orders")" \
    "$(table $calls '^\| function \| stands for' '^$' | sed 1d | awk -F '\t' '{ sub(/;.*/, "", $2); sub(/.*::/, "", $2); print $1 "\t" $2 }')"

# ---- forms
forms=$(sed -n '/^| form | taken by |/,/^$/p' $reading | sed -n 's/^| [^|]* | \(.*\) |$/\1/p' | sed 1d)
[ "$(wc -l <<<"$forms")" = 9 ] || say "$reading: the table of forms has $(wc -l <<<"$forms") rows and not 9"
crate=
while read -r name; do
    read -ra parts <<<"${name//::/ }"
    for part in "${parts[@]}"; do
        if [ -d "crates/$part" ]; then crate=$part
        elif ! grep -rqF -- "$part" "crates/$crate/src" "crates/$crate/proofs"; then say "$reading: the form's '$name' is not in crates/$crate"; fi
    done
done < <(grep -o '`[^`]*`' <<<"$forms" | tr -d '`')
while read -r file; do
    say "$file: has a table of forms, whose home is $reading"
done < <(grep -l '^| form |' README.md docs/*.md | grep -vx $reading)

# ---- edits that must fail
edits=$(find crates -path '*/must-fail/*.edit' | sed 's|^crates/||; s|/must-fail/|/|; s|\.edit$||' | sort)
named=$(sed -n '/^## Edits that must fail/,$p' $calls | sed 's/([^)]*)//g' | grep -o '`[a-z_]*`: [a-z_, ]*' | tr -d '`,' |
    awk '{ sub(/:$/, "", $1); for (i = 2; i <= NF; i++) print $1 "/" $i }' | sort -u)
built=$(sed -n '/^## The six useless builds/,/^## Edits/p' $calls | grep -o '`[a-z_]*/[a-z_]*`' | tr -d '`' | sort -u)
while read -r edit; do
    say "$calls: names the edit $edit, and there is no such file"
done < <(comm -13 <(echo "$edits") <(sort -u <<<"$named"$'\n'"$built"))
while read -r edit; do
    say "$calls: does not name the edit $edit among those that must fail"
done < <(comm -23 <(echo "$edits") <(echo "$named"))

[ $differ = 0 ] || exit 1
echo "facts: $(wc -l <<<"$refusals") refusals, $(wc -l <<<"$orders") orders of checks, 9 forms and $(wc -l <<<"$edits") edits agree"
