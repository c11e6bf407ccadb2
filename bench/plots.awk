# Draws the plots of bench/ from the numbers of bench/store.sh and bench/stall.sh, so that they can be made again where nothing is
# measured:
#
#     awk -v folder=bench -f bench/plots.awk bench/measured.md bench/waits.md
#
# times.svg: seconds of each store on each text. calls.svg: median, 99.9th percentile and worst of single calls. growth.svg:
# cell accesses and microseconds against keys. amortized.svg: cell accesses of one put against keys, beside a lookahead array
# that is amortized. stall.svg: waits under load. Colours follow the viewer, light or dark, over a background of their own.
BEGIN { FS = " *\\| *" }

# A drawing -------------------------------------------------------------------------------------------------------------

function begin(name, width, height, title) {
    out = folder "/" name ".svg"
    printf "<svg xmlns=\"http://www.w3.org/2000/svg\" width=\"%d\" height=\"%d\" viewBox=\"0 0 %d %d\" role=\"img\">\n", width, height, width, height >out
    print "<title>" title "</title>" >out
    print "<style>" >out
    print "text { font: 13px sans-serif; fill: #1c1c1c } .small { font-size: 12px } .strong { font-weight: bold }" >out
    print ".back { fill: #ffffff } .grid { stroke: #d0d0d0; stroke-width: 1 } .thin { stroke: #808080; stroke-width: 1.5 }" >out
    print "polyline { fill: none; stroke-width: 2.5 } .dashed { stroke-dasharray: 7 4 }" >out
    colours("#0060a0 #c04a00 #007a58 #a8457f #9a6a00 #555555")
    print "@media (prefers-color-scheme: dark) {" >out
    print "text { fill: #ececec } .back { fill: #15181c } .grid { stroke: #3b4047 } .thin { stroke: #8a9099 }" >out
    colours("#6cc0f5 #ff9a57 #3ddca8 #f0a3cd #f2c14e #b8b8b8")
    print "}" >out
    print "</style>" >out
    printf "<rect class=\"back\" width=\"%d\" height=\"%d\"/>\n", width, height >out
    write_text(width / 2, 24, "middle", "strong", title)
}
function colours(list,    it, count, at) {
    count = split(list, it, " ")
    for (at = 1; at <= count; at++) printf "polyline.c%d, path.c%d { stroke: %s } circle.c%d, rect.c%d { fill: %s }\n", at, at, it[at], at, at, it[at] >out
}
function end() { print "</svg>" >out; close(out) }
function write_text(x, y, anchor, class, words) {
    printf "<text x=\"%.1f\" y=\"%.1f\" text-anchor=\"%s\"%s>%s</text>\n", x, y, anchor, class == "" ? "" : " class=\"" class "\"", words >out
}
function draw_line(x1, y1, x2, y2, class) {
    printf "<line class=\"%s\" x1=\"%.1f\" y1=\"%.1f\" x2=\"%.1f\" y2=\"%.1f\"/>\n", class, x1, y1, x2, y2 >out
}
# A mark of a colour: a circle, a square, a ring.
function mark(x, y, shape, colour) {
    if (shape == "square") printf "<rect class=\"c%d\" x=\"%.1f\" y=\"%.1f\" width=\"9\" height=\"9\"/>\n", colour, x - 4.5, y - 4.5 >out
    else if (shape == "bar") printf "<rect class=\"c%d\" x=\"%.1f\" y=\"%.1f\" width=\"4\" height=\"16\"/>\n", colour, x - 2, y - 8 >out
    else printf "<circle class=\"c%d\" cx=\"%.1f\" cy=\"%.1f\" r=\"5\"/>\n", colour, x, y >out
}

# A panel: its place, and its scales, which are logarithms to the base 10 unless they are plain. ------------------------------

function panel(x, y, width, height, low_x, high_x, low_y, high_y, plain) {
    left = x; top = y; wide = width; high = height
    x_low = log(low_x); x_high = log(high_x)
    is_plain = plain
    y_low = plain ? low_y : log(low_y); y_high = plain ? high_y : log(high_y)
}
function at_x(value) { return left + wide * (log(value) - x_low) / (x_high - x_low) }
function at_y(value) { return top + high - high * ((is_plain ? value : log(value)) - y_low) / (y_high - y_low) }
function short(value) {
    if (value >= 1000000) return value / 1000000 " million"
    return value >= 1000 ? int(value / 1000) "," substr(value % 1000 + 1000, 2) : value ""
}
# Lines for the powers of ten on the level axis, with their numbers below.
function tens_below(from, to, label,    value) {
    for (value = from; value <= to * 1.001; value *= 10) {
        draw_line(at_x(value), top, at_x(value), top + high, "grid")
        write_text(at_x(value), top + high + 18, "middle", "small", short(value))
    }
    write_text(left + wide / 2, top + high + 38, "middle", "", label)
}
# Lines for keys, every fourth power of two.
function keys_below(    exponent) {
    for (exponent = 8; exponent <= 24; exponent += 4) {
        draw_line(at_x(2 ^ exponent), top, at_x(2 ^ exponent), top + high, "grid")
        write_text(at_x(2 ^ exponent), top + high + 18, "middle", "small", exponent == 20 ? "1,048,576" : exponent == 24 ? "16,777,216" : short(2 ^ exponent))
    }
    write_text(left + wide / 2, top + high + 38, "middle", "", "keys")
}
function number_beside(value) {
    draw_line(left, at_y(value), left + wide, at_y(value), "grid")
    write_text(left - 8, at_y(value) + 4, "end", "small", short(value))
}
# A curve through a column of the growth table, with its name in a list below the panel.
function curve(column, name, colour, class,    at, points) {
    for (at = 1; at <= sizes; at++) points = points sprintf("%.1f,%.1f ", at_x(growth[at, 2]), at_y(growth[at, column]))
    printf "<polyline class=\"c%d %s\" points=\"%s\"/>\n", colour, class, points >out
    name_below(name, colour, class)
}
function name_below(name, colour, class,    x, y) {
    x = left + (named % 2) * wide / 2
    y = top + high + 62 + int(named / 2) * 20
    printf "<polyline class=\"c%d %s\" points=\"%.1f,%.1f %.1f,%.1f\"/>\n", colour, class, x, y - 4, x + 30, y - 4 >out
    write_text(x + 38, y, "start", "small", name)
    named++
}

# The numbers ---------------------------------------------------------------------------------------------------------------

/^## / { section = $0 }
/^\|---/ || NF < 4 || $2 == "store" || $2 == "keys" { next }
section ~ /^## Seconds that passed/ {
    stores++
    store[stores] = $2
    for (at = 3; at <= 8; at++) seconds[stores, at - 2] = $at
}
section ~ /^## Single calls/ {
    callers++
    caller[callers] = $2
    for (at = 3; at <= 8; at++) call[callers, at - 2] = $at
}
section ~ /^## Waits under load/ && $3 == "all-quietest" {
    waits++
    kept[waits] = substr(section, 21)
    waiting[waits] = $2
    for (at = 5; at <= 8; at++) wait[waits, at] = $at
}
section ~ /^## Growth/ {
    sizes++
    for (at = 2; at <= 13; at++) growth[sizes, at] = $at
}

# The plots -------------------------------------------------------------------------------------------------------------------

function times(    text, count, at, it, y) {
    count = split("random puts,random gets,rising puts,rising gets,mixed,ranges", text, ",")
    begin("times", 900, 130 + 26 * stores, "Seconds for each text")
    panel(260, 70, 600, 26 * stores, 0.05, 100, 0, 1, 1)
    for (it = 1; it <= count; it++) {
        mark(270 + (it - 1) * 102, 50, it % 2 ? "circle" : "square", it)
        write_text(280 + (it - 1) * 102, 54, "start", "small", text[it])
    }
    tens_below(0.1, 100, "seconds")
    for (at = 1; at <= stores; at++) {
        y = top + 26 * at - 13
        draw_line(left, y, left + wide, y, "grid")
        write_text(left - 10, y + 4, "end", store[at] ~ /^cola/ ? "strong" : "", store[at])
        for (it = 1; it <= count; it++) if (seconds[at, it] != "") mark(at_x(seconds[at, it]), y, it % 2 ? "circle" : "square", it)
    }
    end()
}
function calls_of(first, title, x,    at, y) {
    panel(x, 90, 330, 26 * callers, 5, 10000, 0, 1, 1)
    write_text(x + 165, 80, "middle", "strong", title)
    tens_below(10, 10000, "microseconds")
    for (at = 1; at <= callers; at++) {
        y = top + 26 * at - 13
        draw_line(left, y, left + wide, y, "grid")
        if (first == 1) write_text(left - 10, y + 4, "end", caller[at] ~ /^cola/ ? "strong" : "", caller[at])
        draw_line(at_x(call[at, first]), y, at_x(call[at, first + 2]), y, "thin")
        mark(at_x(call[at, first]), y, "circle", 1)
        mark(at_x(call[at, first + 1]), y, "bar", 5)
        mark(at_x(call[at, first + 2]), y, "square", 2)
    }
}
function calls(    at) {
    begin("calls", 980, 150 + 26 * callers, "Single calls")
    mark(270, 50, "circle", 1); write_text(280, 54, "start", "small", "median")
    mark(350, 50, "bar", 5); write_text(360, 54, "start", "small", "99.9th percentile")
    mark(490, 50, "square", 2); write_text(500, 54, "start", "small", "worst")
    calls_of(1, "puts", 255)
    calls_of(4, "gets", 620)
    end()
}
function grown(    at) {
    begin("growth", 980, 490, "Cost against keys, blocks of 2^5 cells, a cache of 4,096 blocks")
    panel(70, 60, 380, 300, 64, 2 ^ 24, 0, 1000, 1)
    write_text(left + wide / 2, 50, "middle", "", "cell accesses of a call")
    for (at = 0; at <= 1000; at += 200) number_beside(at)
    keys_below()
    named = 0
    curve(6, "put, the proved bound", 6, "dashed")
    curve(9, "get, the proved bound", 5, "dashed")
    curve(5, "put, most", 2, "")
    curve(8, "get, most", 3, "")
    curve(4, "put, mean", 1, "")
    curve(7, "get, mean", 4, "")
    panel(560, 60, 380, 300, 64, 2 ^ 24, 5, 500, 0)
    write_text(left + wide / 2, 50, "middle", "", "microseconds of a call")
    number_beside(5); number_beside(10); number_beside(20); number_beside(50); number_beside(100); number_beside(200); number_beside(500)
    keys_below()
    named = 0
    curve(11, "put, worst", 2, "")
    curve(13, "get, worst", 3, "")
    curve(10, "put, median", 1, "")
    curve(12, "get, median", 4, "")
    end()
}
# An amortized lookahead array of arrays that double, which merges two of a level into the next at once, reads and writes each
# cell once a level: 2 log2 N cell accesses a put in the mean; the put that merges all of N cells makes 2 N.
function amortized(    at) {
    for (at = 1; at <= sizes; at++) {
        growth[at, "mean"] = 2 * log(growth[at, 2]) / log(2)
        growth[at, "whole"] = 2 * growth[at, 2]
    }
    begin("amortized", 780, 520, "Cell accesses of one put against keys")
    panel(110, 50, 620, 350, 64, 2 ^ 24, 10, 100000000, 0)
    for (at = 10; at <= 100000000; at *= 10) number_beside(at)
    keys_below()
    named = 0
    curve("whole", "amortized: the worst put, 2 N", 4, "")
    curve("mean", "amortized: the mean, 2 log2 N", 3, "")
    curve(6, "this store: the proved bound, 40 a level", 6, "dashed")
    curve(5, "this store: the worst put", 2, "")
    curve(4, "this store: the mean", 1, "")
    end()
}
# A row for each store in each table: median, 99.9th and 99.99th percentile and worst of all its calls in that quarter.
function stalls(    at, y) {
    begin("stall", 900, 210 + 24 * waits, "Waits under load, from the time that a call was due, in the quietest quarter of a run")
    mark(270, 50, "circle", 1); write_text(280, 54, "start", "small", "median")
    mark(350, 50, "bar", 5); write_text(360, 54, "start", "small", "99.9th percentile")
    mark(490, 50, "bar", 4); write_text(500, 54, "start", "small", "99.99th")
    mark(570, 50, "square", 2); write_text(580, 54, "start", "small", "worst")
    panel(260, 70, 600, 24 * waits + 90, 0.1, 10000000, 0, 1, 1)
    tens_below(1, 10000000, "microseconds")
    for (at = 1; at <= waits; at++) {
        if (kept[at] != kept[at - 1]) { y += 24; write_text(left + 6, top + y - 4, "start", "strong", kept[at]) }
        y += 24
        write_text(left - 10, top + y - 8, "end", waiting[at] ~ /^cola/ ? "strong" : "", waiting[at])
        draw_line(at_x(wait[at, 5]), top + y - 12, at_x(wait[at, 8]), top + y - 12, "thin")
        mark(at_x(wait[at, 5]), top + y - 12, "circle", 1)
        mark(at_x(wait[at, 6]), top + y - 12, "bar", 5)
        mark(at_x(wait[at, 7]), top + y - 12, "bar", 4)
        mark(at_x(wait[at, 8]), top + y - 12, "square", 2)
    }
    end()
}
END {
    if (waits) stalls()
    times()
    calls()
    grown()
    amortized()
}
