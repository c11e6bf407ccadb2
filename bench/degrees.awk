# What README.md and docs/manual/OPERATIONS.md tell of bench/library.md, from its own numbers: each line has the page, and a part of
# a line that stands there.
#
#     awk -f bench/degrees.awk bench/library.md
#
# Puts a second are those of the text in random order.
BEGIN { FS = " *\\| *" }
/^\| .* keys in random order/ { section = "random" }
/^\| .* keys in rising order/ || /^$/ { section = "" }
/^\| Puts that are on the disk/ { section = "disk" }
/^\| Checkpoints of/ { section = "checkpoints" }
section == "random" && /^\| (cola|LevelDB|LMDB|SQLite|Tkrzw)/ {
    split($3, both, / \+ /); split($7, put, /, /); split($8, get, /, /)
    puts[$2] = both[1]; gets[$2] = both[2]; worst[$2] = put[4]; memory[$2] = $9
}
section == "disk" && /^\| cola/ { synced[$2] = $4 }
section == "checkpoints" && $2 == 1000 { copied = $5 }
function thousands(number,    text) {
    text = sprintf("%d", number)
    return length(text) > 3 ? substr(text, 1, length(text) - 3) "," substr(text, length(text) - 2) : text
}
# (a second, to the hundred)
function rate(number) { return thousands(int(number / 100 + 0.5) * 100) }
function degree(name, it, behind) { printf "docs/manual/OPERATIONS.md\t| %s | %.0f | %.0f%s |\n", rate(1e6 / puts[it]), worst[it], memory[it], behind }
END {
    mapped = "cola, block 5"; many = mapped ", synced, 1,000 rows a call"
    printf "README.md\t| random puts a second | %s, each finding the old value | %s LevelDB, %s SQLite |\n", rate(1e6 / puts[mapped]), rate(1e6 / puts["LevelDB"]), rate(1e6 / puts["SQLite"])
    printf "README.md\t| random gets a second | %s | %s LevelDB, %s LMDB |\n", rate(1e6 / gets[mapped]), rate(1e6 / gets["LevelDB"]), rate(1e6 / gets["LMDB"])
    printf "README.md\t| the worst put | %s us in memory, %s mapped | %s Tkrzw, %s LMDB |\n", worst[mapped ", resident"], worst[mapped], worst["Tkrzw"], worst["LMDB"]
    printf "README.md\t| memory | %.0f MiB, which the system may take back | %.0f LevelDB, %.0f SQLite |\n", memory[mapped], memory["LevelDB"], memory["SQLite"]
    degree("mapped", mapped, ", which the system may take back")
    degree("resident", mapped ", resident", "")
    degree("logged", mapped ", logged", "")
    printf "docs/manual/OPERATIONS.md\t| %s; by 100, %s | %s, by 1,000 | %.0f |\n", rate(synced["cola, each"]), rate(synced["cola, by 100"]), thousands(worst[many]), memory[many]
    printf "docs/manual/OPERATIONS.md\tbehind 1,000 puts %s of a copy\n", copied
}
