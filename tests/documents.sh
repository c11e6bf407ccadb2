#!/usr/bin/env bash
# The checks of the documents: each file and each name that they speak of exists, each crate has its lines, each status
# means what the program says, and the pages are as short as they are meant to be. The last line is 'N passed, M failed',
# and the status is 0 only where none failed.
. "$(dirname "$0")/lib.sh"
cd "$root" || exit 1

# count WHAT STATUS: counts a check.
count() {
    if [ "$2" -eq 0 ]; then
        passed=$((passed + 1))
    else
        failed=$((failed + 1))
        printf 'FAILED: %s\n' "$1"
    fi
}

crates=$(sed -n 's/#.*//; s/^\([a-z][a-z0-9_]*\)[^:]*:.*/\1/p' crates.txt)
words=$room/words
# Every word of the code, of the launcher and of the scripts.
cat crates.txt cola Makefile docs/*.awk docs/cola.bash tests/*.sh $(find bench packaging include bindings -type f) \
    $(find crates -path '*/out' -prune -o \( -name '*.rt' -o -name '*.antt' \) -print) |
    tr -c 'A-Za-z0-9_' '\n' | sort -u >"$words"

# spoken FILE: what stands in backquotes in a page, but for its indented examples.
spoken() { grep -v '^    ' "$1" | grep -o '`[^`]*`' | tr -d '`' | sort -u; }

# is_there FOLDER PATH: whether the path is that of a file, from the page's folder, the top, crates/ or a crate's folder.
is_there() {
    local at
    case $2 in
        out/* | */out/*) return 0 ;; # made by the toolchain
    esac
    for at in "$1" . crates "$1"/{src,specs,proofs} crates/* crates/*/{src,specs,proofs}; do
        [ -e "$at/$2" ] && return 0
    done
    return 1
}

pages=$(git ls-files '*.md' 2>/dev/null) || pages=$(find . -name '*.md')
for page in $pages; do
    folder=$(dirname "$page")
    while IFS= read -r it; do
        case $it in
            *[' <>*(){}=']* | '') continue ;;
            */*.* | *.rt | *.antt | *.sh | *.md | */src | */specs | */proofs)
                is_there "$folder" "${it#./}"
                count "$page speaks of the file $it" $? ;;
            *_* | *::* | *[a-z][A-Z]*)
                for name in $(printf '%s' "$it" | tr -c 'A-Za-z0-9_' ' '); do
                    grep -qx -- "$name" "$words" || [ -e "$folder/$name" ] || ls -d /opt/rattle/rlibs/"$name".rlib >/dev/null 2>&1
                    count "$page speaks of $name ($it)" $?
                done ;;
        esac
    done < <(spoken "$page")
done

for crate in $crates; do
    grep -q "\`$crate\`" docs/MAP.md
    count "docs/MAP.md names $crate" $?
    sed -n '/^## Crate by crate/,$p' docs/PROMISES.md | grep -q "\`$crate\`"
    count "docs/PROMISES.md says what is proved of $crate" $?
done

# crates.txt has the floors of docs/MAP.md as headings and its crates in that order, and each crate stands on what the map says:
# the crates that its line in crates.txt names, without those on which another of these stands.
sed -n 's/^# \(.*\)/# \1/p; s/^\([a-z][a-z0-9_]*\)[^:]*:.*/\1/p' crates.txt |
    cmp -s - <(sed -n 's/^| \([^|`]*[^| ]\) | `\([a-z0-9_]*\)` |.*/# \1\n\2/p; s/^| | `\([a-z0-9_]*\)` |.*/\1/p' docs/MAP.md)
count 'crates.txt has the floors and the crates of docs/MAP.md, in its order' $?
while IFS= read -r wrong; do
    count "docs/MAP.md says what a crate stands on: $wrong" "$([ "$wrong" = right ]; echo $?)"
done < <(awk '
    function sorted(list,    count, i, j, it, word, out) {
        count = split(list, word, " ")
        for (i = 2; i <= count; i++) { it = word[i]; for (j = i - 1; j >= 1 && word[j] > it; j--) word[j + 1] = word[j]; word[j + 1] = it }
        for (i = 1; i <= count; i++) out = out " " word[i]
        return out
    }
    FNR == NR {
        sub(/#.*/, "")
        if (!(at = index($0, ":"))) next
        split(substr($0, 1, at - 1), word, " ")
        name = word[1]; ours[name]; direct[name] = ""
        count = split(substr($0, at + 1), word, " ")
        for (i = 1; i <= count; i++) if (word[i] in ours) {
            direct[name] = direct[name] " " word[i]; below[name, word[i]]
            for (low in ours) if ((word[i], low) in below) { below[name, low]; further[name, low] }
        }
        next
    }
    /^\| [^|]*\| `[a-z0-9_]*` \|/ {
        split($0, cell, " *[|] *"); name = substr(cell[3], 2, length(cell[3]) - 2); said = cell[5]; gsub(/[`,]/, "", said); wanted = ""
        count = split(direct[name], word, " ")
        for (i = 1; i <= count; i++) if (!((name, word[i]) in further)) wanted = wanted " " word[i]
        print sorted(said) == sorted(wanted) ? "right" : name ":" wanted
    }
' crates.txt docs/MAP.md)

# README names the toolchain's crates that are built over.
kit=$(sed -n 's/#.*//; s/^[a-z][a-z0-9_]*[^:]*://p' crates.txt | tr ' ' '\n' | grep -v '^cola_\|^core$\|^std' | sort -u | tr -d '\n')
[ "$(sed -n 's/^Proved with .* over its crates //p' README.md | grep -o '`[a-z0-9]*`' | tr -d '`\n')" = "$kit" ]
count 'README names the crates of the toolchain that crates.txt has' $?

# What a page says to be of a crate, as `shape_of` of `cola_shapes`, is declared there.
for page in $pages; do
    while read -r name crate; do
        cat $(find "crates/$crate" -path '*/out' -prune -o \( -name '*.rt' -o -name '*.antt' \) -print) |
            grep -qE "\\b(fn|struct|enum|trait|const|type|record|data|mod|ghost) $name\\b|^ *((abbrev|opaque) )?(pub )?$name( \{[^}]*\})? ?:|(ensures|requires)\\*? $name \{|^ *$name[,({]"
        count "$page says that $name is of $crate" $?
    done < <(tr '\n' ' ' <"$page" | grep -oE '`[A-Za-z_:]+`( \([^)]*\))? (in|of) `(cola_[a-z_]+|cola)`' | sed -E 's/^`([A-Za-z_]+::)*([A-Za-z_]+)`.*`([a-z_]+)`$/\2 \3/')
done

# Each mode stands in the page of the crate that serves it, and in that of the headline.
for mode in $(sed -n '/^## Modes/,/^###/s/^| `\([a-z]*\)[ `].*/\1/p' docs/COMMANDS.md); do
    for page in crates/cola_command/README.md docs/HEADLINE.md; do
        grep -q "\`$mode\`" "$page"
        count "$page speaks of the mode $mode" $?
    done
done

tests/rows.sh --statuses >"$words"
count 'the program says what its statuses mean' $?
while read -r number meaning; do
    grep -qF "| $number | $meaning |" docs/COMMANDS.md
    count "docs/COMMANDS.md says that status $number means: $meaning" $?
done <"$words"

# Each link leads to a page, and to a section of it; each page is one step from README, and so is all that it says is to be found.
has_section() { # PAGE ANCHOR: a title as a viewer of Markdown makes an anchor of it
    grep '^#' "$1" | sed 's/^#* //; s/[^A-Za-z0-9 _-]//g; s/ /-/g' | tr 'A-Z' 'a-z' | grep -qx -- "$2"
}
for page in $pages; do
    folder=$(dirname "$page")
    while IFS= read -r link; do
        case $link in '' | http*) continue ;; esac
        file=${link%%#*} anchor=
        [ "$file" = "$link" ] || anchor=${link#*#}
        [ -e "$folder/$file" ] && { [ -z "$anchor" ] || has_section "$folder/${file:-$(basename "$page")}" "$anchor"; }
        count "$page has a link to $link" $?
    done < <(grep -v '^    ' "$page" | grep -o ']([^)]*)' | sed 's/^](//; s/)$//' | sort -u)
done
for page in CONTRIBUTING.md docs/*.md docs/manual/*.md bench/README.md bench/STORE.md; do
    grep -q "]($page[#)]" README.md
    count "README.md leads to $page" $?
done
rows=$(sed -n '/^## Where you find it/,/^## /s/^| \([^-Y].*\) | \(.*\) |$/\1: \2/p' README.md)
count 'README.md says where things are found' "$([ "$(wc -l <<<"$rows")" -ge 20 ]; echo $?)"
while IFS= read -r row; do
    grep -q ']([a-zA-Z_/.]*\.md' <<<"$row"
    count "README.md leads to a page for what is looked for: $row" $?
done <<<"$rows"

# The numbers of README and of the four degrees were measured.
while IFS=$'\t' read -r page part; do
    grep -qF -- "$part" "$page"
    count "$page has what bench/degrees.awk makes of bench/library.md: $part" $?
done < <(awk -f bench/degrees.awk bench/library.md)
for number in $(sed -n '/^## What it costs/,/^## /s/^| the file.*/&/p' README.md | grep -oE '[0-9]+(\.[0-9]+)?'); do
    grep -qE "\\| $number \\|\$" bench/measured.md
    count "README.md has $number as bench/measured.md" $?
done

# A first launch takes what was measured, to ten minutes.
told=$(sed -n 's/.*on such a machine and beside editing, it took \([0-9]*\) minutes,.* takes \([0-9]*\) GB of disk\..*/\1 \2/p' bench/GATE.md)
read -r minutes size <<<"$told"
grep -qF "in about $(((minutes + 5) / 10 * 10)) minutes on four processors and ${size:-?} GB of disk" README.md
count "README.md has the minutes and the disk of a first launch as bench/GATE.md: $told" $?

# The table of blocks and caches, and what is said of it, has the numbers that were measured.
while IFS= read -r part; do
    grep -qF -- "$part" docs/manual/OPERATIONS.md
    count "docs/manual/OPERATIONS.md has what bench/choosing.awk makes of bench/measured.md: $part" $?
done < <(awk -f bench/choosing.awk bench/measured.md)

# The plots are drawn from what was measured, and the page on the design says what it says.
plots=$room/plots
mkdir "$plots" || exit 1
awk -v folder="$plots" -f bench/plots.awk bench/measured.md bench/waits.md
for plot in times calls growth amortized stall; do
    cmp "bench/$plot.svg" "$plots/$plot.svg"
    count "bench/$plot.svg is what bench/plots.awk draws of what was measured (make documents)" $?
done
for number in $(awk -F ' *[|] *' '/^## / { growth = /^## Growth/ } growth && /^\| [0-9]/ { last = $4 " " $5 " " $6 " " $7 " " $8 " " $9 } END { print last }' bench/measured.md); do
    grep -q "[^0-9.]$number[^0-9]" docs/manual/DESIGN.md
    count "docs/manual/DESIGN.md has $number, as bench/measured.md" $?
done

[ -z "$(sed -n 's/^| \([^-].*\) | .*/\1/p' docs/PROMISES.md | grep -vx Promise | sort | uniq -d)" ]
count 'docs/PROMISES.md names each promise once' $?

# A command of cola stands in an example that tests/examples.sh runs.
for page in $pages; do
    case $page in crates/*) continue ;; esac
    bare=$(awk '/^    [$] / { example = 1 } !/^    / && !/^$/ { example = 0 } !example && /^    ([.]\/)?cola [a-z]/' "$page")
    [ -z "$bare" ]
    count "$page has no command of cola that is not run${bare:+: $bare}" $?
done

# How long the pages are, in words. The manual (the commands, and docs/manual) is counted apart, and what is measured (bench) is not.
within() { # WHAT MOST PAGE..
    local what=$1 most=$2 have
    shift 2
    have=$(cat -- "$@" | wc -w)
    [ "$have" -le "$most" ]
    count "$what: $have words, of at most $most" $?
}
within 'README.md' 1100 README.md
within 'CONTRIBUTING.md' 900 CONTRIBUTING.md
within 'the manual' 7900 docs/COMMANDS.md docs/manual/*.md
within 'the READMEs of crates' 12000 crates/*/README.md
within 'all pages but the manual and what is measured' 32000 $(printf '%s\n' $pages | grep -v '^bench/\|^docs/COMMANDS.md$\|^docs/manual/')
# A crate's README is a table of its calls, and what no clause says.
for page in crates/*/README.md; do
    within "$page" 350 "$page"
    [ "$(wc -l <"$page")" -le 40 ]
    count "$page has at most 40 lines" $?
done

finish
