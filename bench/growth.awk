# The picture of how a rehearsal grows, for bench/growth: three fields, of instructions against L, the tasks and the
# events, from the table that it measured. A thick line with dots is the proved code, a thin one plain C event by event,
# a dashed one plain C tick by tick.

function log10(x) { return log(x) / log(10) }

function power(e) { return "10<tspan dy=\"-4\" font-size=\"8\">" e "</tspan>" }

function text(x, y, anchor, words) {
    printf "<text x=\"%.1f\" y=\"%.1f\" text-anchor=\"%s\">%s</text>\n", x, y, anchor, words
}

function line(x, y, u, v, style) {
    printf "<line x1=\"%.1f\" y1=\"%.1f\" x2=\"%.1f\" y2=\"%.1f\" %s/>\n", x, y, u, v, style
}

# Where a number stands on an axis: by its size in a plain field, by its power of ten in the others.
function place(x) { return is_plain ? x : log10(x) }

function across(x) { return left + wide * (place(x) - low) / (high - low) }

function up(x) { return top + tall * (1 - (place(x) - floor) / (roof - floor)) }

# A mark of an axis is at a power of ten, or at a number itself.
function marked(e) { return is_plain ? e : 10 ^ e }

# The ground of a field and its axes, with a mark each `step` across and each `rise` up.
function field(title, below, step, rise,    e) {
    text(left + wide / 2, top - 12, "middle", title)
    for (e = floor; e <= roof; e += rise) {
        line(left, up(marked(e)), left + wide, up(marked(e)), "stroke=\"#ddd\"")
        text(left - 6, up(marked(e)) + 4, "end", is_plain ? e / 1000000 : power(e))
    }
    for (e = low; e <= high; e += step) {
        line(across(marked(e)), top + tall, across(marked(e)), top + tall + 4, "stroke=\"black\"")
        text(across(marked(e)), top + tall + 18, "middle", is_plain ? e : power(e))
    }
    line(left, top, left, top + tall, "stroke=\"black\"")
    line(left, top + tall, left + wide, top + tall, "stroke=\"black\"")
    text(left + wide / 2, top + tall + 38, "middle", below)
}

# The points of a series in one of its columns of instructions; a table may lack the number.
function curve(series, column, style, dots,    i, x, path) {
    for (i = 1; i <= points[series]; i++) {
        if (y[series, i, column] == "") continue
        x = across(at[series, i])
        path = path sprintf("%s%.1f,%.1f", i % 4 == 1 ? "\n" : " ", x, up(y[series, i, column]))
        if (dots) printf "<circle cx=\"%.1f\" cy=\"%.1f\" r=\"3\"/>\n", x, up(y[series, i, column])
    }
    printf "<polyline fill=\"none\" stroke=\"black\" %s points=\"%s\"/>\n", style, path
}

function curves(series) {
    curve(series, 3, dashed, 0)
    curve(series, 2, thin, 0)
    curve(series, 1, thick, 1)
}

function key(x, style, dots, words) {
    line(x, 306, x + 34, 306, "stroke=\"black\" " style)
    if (dots) printf "<circle cx=\"%.1f\" cy=\"306\" r=\"3\"/>\n", x + 17
    text(x + 42, 310, "start", words)
}

BEGIN { FS = " *[|] *" }

# | Grows | Tasks | L | Events | three times | proved | plain C | ratio | tick by tick |
$2 == "L" || $2 == "n" || $2 == "events" || $2 == "T = 2" {
    series = $2 == "T = 2" ? "events" : $2
    i = ++points[series]
    at[series, i] = $(series == "L" ? 4 : series == "n" ? 3 : 5)
    y[series, i, 1] = $9; y[series, i, 2] = $10; y[series, i, 3] = $12
}

END {
    top = 64; wide = 200; tall = 180
    thick = "stroke-width=\"2\""; thin = "stroke-width=\"1\""; dashed = "stroke-width=\"1\" stroke-dasharray=\"5 4\""
    printf "<svg xmlns=\"http://www.w3.org/2000/svg\" width=\"800\" height=\"326\" viewBox=\"0 0 800 326\""
    print "\n    font-family=\"sans-serif\" font-size=\"11\">"
    print "<title>Instructions of a rehearsal against the common multiple, the tasks and the events</title>"
    print "<rect width=\"800\" height=\"326\" fill=\"white\"/>"
    text(400, 20, "middle", "Instructions of one rehearsal; in the middle, millions of them")
    left = 50; low = 3; high = 6; floor = 5; roof = 10
    field("8 tasks, always the same 2,045 events", "L, the common multiple, in ticks", 1, 1)
    curves("L")
    left = 582; low = 2
    field("32 tasks, L is 1,000,000", "events", 1, 1)
    curves("events")
    left = 316; low = 0; high = 32; floor = 0; roof = 25000000; is_plain = 1
    field("10,001 events, one at every tick", "tasks", 8, 5000000)
    curves("n")
    key(60, thick, 1, "proved, event by event")
    key(310, thin, 0, "plain C, event by event")
    key(570, dashed, 0, "plain C, tick by tick")
    print "</svg>"
}
