# What docs/manual/OPERATIONS.md tells of the numbers of bench/store.sh, each line a row or a part of a line that stands there: the
# table of blocks and caches, and then what the text says:
#
#     awk -f bench/choosing.awk bench/measured.md
#
# Puts and gets a second are those of the random texts; the worst calls are those of single calls.
BEGIN {
    FS = " *\\| *"
    print "| Block | Cache, blocks | Puts a second | Gets a second | Worst put, us | Worst get, us | Peak memory, MiB |"
    print "|---:|---:|---:|---:|---:|---:|---:|"
}
/^## / { section = $0 }
/^Stores for/ { lines = $0; sub(/.*texts of /, "", lines); sub(/ lines.*/, "", lines) }
/^\| cola, block/ && section ~ /^## Seconds that passed/ {
    order[++count] = $2
    puts[$2] = lines / $3
    gets[$2] = lines / $4
    peak[$2] = $9
    disk[$2] = $10
}
/^\| cola, block/ && section ~ /^## Reads and writes/ { reads[$2] = $3; writes[$2] = $4 }
/^With/ && section ~ /^## The first row behind/ { first = $0; sub(/.* took /, "", first); sub(/ \(.*/, "", first) }
/^\| cola, block/ && section ~ /^## Single calls/ { put[$2] = $5; get[$2] = $8 }
function thousands(number,    text) {
    text = sprintf("%d", number)
    return length(text) > 3 ? substr(text, 1, length(text) - 3) "," substr(text, length(text) - 2) : text
}
END {
    for (at = 1; at <= count; at++) {
        name = order[at]
        split(name, word, /[, ]+/)
        # (puts and gets to the hundred)
        printf "| %d | %s | %s | %s | %.0f | %.0f | %s |\n", word[3], thousands(word[5]), thousands(int(puts[name] / 100 + 0.5) * 100), thousands(int(gets[name] / 100 + 0.5) * 100), put[name], get[name], peak[name]
    }
    small = "cola, block 5, cache 0"; large = "cola, block 9, cache 0"
    printf "without a cache %.0f and %.1f for a put at 2^5, %.0f and %.2f at 2^9\n", reads[small], writes[small], reads[large], writes[large]
    printf "took %s MiB of disk in a file of 256\n", disk[small]
    printf "one row took %s\n", first == "" ? "(not measured)" : first
}
