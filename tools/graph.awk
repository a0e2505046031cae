# The picture of crates.txt, for tools/graph. A crate's layer is one above the highest crate that it stands on; one that
# stands on no other of the repository is put just below those that stand on it. An arrow that follows from others is
# left out. An arrow over several layers gets a place of its own in each, so that it passes between the boxes.

function read_crates(    i, name) {
    sub(/#.*/, "")
    i = index($0, ":")
    if (!i) return
    name = substr($0, 1, i - 1)
    sub(/ staticlib.*/, "", name)
    gsub(/[ \t]/, "", name)
    crate[++crates] = name
    stands_on[name] = substr($0, i + 1)
}

function reaches(from, to,    part, k, n) {
    if ((from, to) in reach) return reach[from, to]
    reach[from, to] = 0
    n = split(stands_on[from], part, " ")
    for (k = 1; k <= n; k++)
        if ((part[k] in stands_on) && (part[k] == to || reaches(part[k], to))) reach[from, to] = 1
    return reach[from, to]
}

# The edges that do not follow from others.
function reduce(    c, d, k, m, n, part) {
    for (c = 1; c <= crates; c++) {
        n = split(stands_on[crate[c]], part, " ")
        for (k = 1; k <= n; k++) {
            if (!(part[k] in stands_on)) continue
            for (m = 1; m <= n; m++)
                if ((part[m] in stands_on) && reaches(part[m], part[k])) break
            if (m > n) { edges++; edge_from[edges] = crate[c]; edge_to[edges] = part[k] }
        }
    }
}

function height(name,    e, h) {
    if (name in layer) return layer[name]
    h = 0
    for (e = 1; e <= edges; e++)
        if (edge_from[e] == name && height(edge_to[e]) + 1 > h) h = layer[edge_to[e]] + 1
    return layer[name] = h
}

function set_layers(    c, e, least, low, name) {
    for (c = 1; c <= crates; c++) if (height(crate[c]) > top) top = layer[crate[c]]
    for (c = 1; c <= crates; c++) {
        name = crate[c]
        if (layer[name] > 0) continue
        least = top + 1
        for (e = 1; e <= edges; e++)
            if (edge_to[e] == name && layer[edge_from[e]] < least) least = layer[edge_from[e]]
        if (least <= top && least > 0) layer[name] = least - 1
    }
}

# Places in the layers: a box for each crate, and for each edge a narrow place in every layer that it passes.
function add_place(name, l, w) {
    place[++places] = name
    at_layer[places] = l
    width[places] = w
    row[l, row_size[l]++] = places
    return places
}

function link(upper, lower) {
    links++
    link_upper[links] = upper
    link_lower[links] = lower
}

function set_places(    c, e, l, p, before) {
    for (c = 1; c <= crates; c++) box[crate[c]] = add_place(crate[c], layer[crate[c]], 9 * length(crate[c]) + 26)
    for (e = 1; e <= edges; e++) {
        before = box[edge_from[e]]
        for (l = layer[edge_from[e]] - 1; l > layer[edge_to[e]]; l--) {
            p = add_place("", l, 14)
            link(before, p)
            before = p
        }
        link(before, box[edge_to[e]])
    }
}

# The mean of the places that a place is linked with: above it, below it, or both.
function wanted(p, above, below, value,    k, n, sum) {
    for (k = 1; k <= links; k++) {
        if (above && link_lower[k] == p) { sum += value[link_upper[k]]; n++ }
        if (below && link_upper[k] == p) { sum += value[link_lower[k]]; n++ }
    }
    return n ? sum / n : value[p]
}

function sort_row(l, key,    i, j, p) {
    for (i = 1; i < row_size[l]; i++) {
        p = row[l, i]
        for (j = i - 1; j >= 0 && key[row[l, j]] > key[p]; j--) row[l, j + 1] = row[l, j]
        row[l, j + 1] = p
    }
    for (i = 0; i < row_size[l]; i++) rank[row[l, i]] = i
}

function crossings(    a, b, n) {
    for (a = 1; a <= links; a++)
        for (b = a + 1; b <= links; b++)
            if (at_layer[link_upper[a]] == at_layer[link_upper[b]] && \
                (rank[link_upper[a]] - rank[link_upper[b]]) * (rank[link_lower[a]] - rank[link_lower[b]]) < 0) n++
    return n + 0
}

function keep_order(    p) { for (p = 1; p <= places; p++) best_rank[p] = rank[p] }

# Exchanges neighbours in a row as long as that takes crossings away.
function exchange(l,    i, p, q, now, then) {
    now = crossings()
    for (i = 0; i + 1 < row_size[l]; i++) {
        p = row[l, i]; q = row[l, i + 1]
        row[l, i] = q; row[l, i + 1] = p
        rank[q] = i; rank[p] = i + 1
        then = crossings()
        if (then < now) now = then
        else { row[l, i] = p; row[l, i + 1] = q; rank[p] = i; rank[q] = i + 1 }
    }
}

# The order in the rows: by the mean of the neighbours, downwards and upwards in turn; the best of all rounds is kept.
function set_order(    i, l, n, p, fewest, round) {
    for (l = 0; l <= top; l++) for (i = 0; i < row_size[l]; i++) rank[row[l, i]] = i
    fewest = crossings() + 1
    for (round = 1; round <= 24; round++) {
        for (n = 0; n <= top; n++) {
            l = round % 2 ? n : top - n
            for (i = 0; i < row_size[l]; i++) { p = row[l, i]; key[p] = wanted(p, !(round % 2), round % 2, rank) }
            sort_row(l, key)
        }
        for (l = 0; l <= top; l++) exchange(l)
        n = crossings()
        if (n < fewest) { fewest = n; keep_order() }
    }
    for (l = 0; l <= top; l++) sort_row(l, best_rank)
}

function gap(p, q) { return (width[p] + width[q]) / 2 + (place[p] == "" || place[q] == "" ? 12 : 22) }

# x of each place: where its neighbours are, as near as the others in the row allow. The row is set from the left and
# from the right, and the mean of the two keeps all distances.
function set_row(l,    i, n, p, from_left, from_right) {
    n = row_size[l]
    for (i = 0; i < n; i++) { p = row[l, i]; goal[p] = wanted(p, 1, 1, x) }
    for (i = 0; i < n; i++) {
        p = row[l, i]
        from_left[i] = goal[p]
        if (i && from_left[i - 1] + gap(row[l, i - 1], p) > goal[p])
            from_left[i] = from_left[i - 1] + gap(row[l, i - 1], p)
    }
    for (i = n - 1; i >= 0; i--) {
        p = row[l, i]
        from_right[i] = goal[p]
        if (i + 1 < n && from_right[i + 1] - gap(p, row[l, i + 1]) < goal[p])
            from_right[i] = from_right[i + 1] - gap(p, row[l, i + 1])
    }
    for (i = 0; i < n; i++) x[row[l, i]] = (from_left[i] + from_right[i]) / 2
}

function set_x(    i, l, p, left, round) {
    for (l = 0; l <= top; l++)
        for (i = 0; i < row_size[l]; i++) {
            p = row[l, i]
            x[p] = i ? x[row[l, i - 1]] + gap(row[l, i - 1], p) : 0
        }
    for (round = 1; round <= 60; round++)
        for (i = 0; i <= top; i++) set_row(round % 2 ? i : top - i)
    left = 100000
    for (p = 1; p <= places; p++) if (x[p] - width[p] / 2 < left) left = x[p] - width[p] / 2
    for (p = 1; p <= places; p++) {
        x[p] = int(x[p] - left + 24 + 0.5)
        if (x[p] + width[p] / 2 + 24 > wide) wide = int(x[p] + width[p] / 2 + 24)
    }
}

function y(p) { return 40 + (top - at_layer[p]) * 84 }

# Where a link leaves or meets a box: the links of one side stand side by side, in the order of their other ends.
function port(k, p, above,    m, n, before, other, this) {
    if (place[p] == "") return x[p]
    this = above ? link_upper[k] : link_lower[k]
    for (m = 1; m <= links; m++) {
        if ((above ? link_lower[m] : link_upper[m]) != p) continue
        other = above ? link_upper[m] : link_lower[m]
        n++
        if (x[other] < x[this] || (x[other] == x[this] && m < k)) before++
    }
    return int(x[p] + (before - (n - 1) / 2) * (n > 1 ? (width[p] - 24) / n : 0) + 0.5)
}

function draw_link(k,    p, q, x1, x2, y1, y2, mid, head) {
    p = link_upper[k]; q = link_lower[k]
    x1 = port(k, p, 0); x2 = port(k, q, 1)
    y1 = y(p) + 16; y2 = y(q) - 16
    head = place[q] == "" ? "" : " marker-end=\"url(#head)\""
    if (head != "") y2 -= 2
    mid = int((y1 + y2) / 2)
    printf "  <path d=\"M%d %d C%d %d %d %d %d %d", x1, y1, x1, mid, x2, mid, x2, y2
    if (head == "") printf " V%d", y(q) + 16
    printf "\"%s/>\n", head
}

function draw_box(p,    kind) {
    kind = index(programs " ", " " place[p] " ") ? "program" : "library"
    printf "  <rect class=\"%s\" x=\"%d\" y=\"%d\" width=\"%d\" height=\"32\" rx=\"5\"/>\n", \
        kind, x[p] - int(width[p] / 2), y(p) - 16, width[p]
    printf "  <text x=\"%d\" y=\"%d\">%s</text>\n", x[p], y(p) + 5, place[p]
}

function draw_head(high) {
    printf "<svg xmlns=\"http://www.w3.org/2000/svg\" width=\"%d\" height=\"%d\" viewBox=\"0 0 %d %d\">\n", \
        wide, high, wide, high
    print "  <title>The crates of Gorsetumble, and what each stands on</title>"
    print "  <style>"
    print "    text { font: 15px 'DejaVu Sans Mono', Menlo, Consolas, monospace; text-anchor: middle; fill: #111 }"
    print "    .legend { font-size: 13px; text-anchor: start }"
    print "    path { fill: none; stroke: #555; stroke-width: 1.4 }"
    print "    rect { stroke: #333; stroke-width: 1.2 }"
    print "    .library { fill: #e4ecfa }"
    print "    .program { fill: #fbdca8 }"
    print "  </style>"
    print "  <marker id=\"head\" markerWidth=\"8\" markerHeight=\"8\" refX=\"6\" refY=\"4\" orient=\"auto\">"
    print "    <path d=\"M0 0 L8 4 L0 8 Z\" style=\"fill: #555; stroke: none\"/>"
    print "  </marker>"
    printf "  <rect width=\"%d\" height=\"%d\" style=\"fill: #fff; stroke: none\"/>\n", wide, high
}

function draw_legend(high) {
    printf "  <rect class=\"library\" x=\"24\" y=\"%d\" width=\"22\" height=\"14\" rx=\"3\"/>\n", high - 80
    printf "  <text class=\"legend\" x=\"54\" y=\"%d\">a library</text>\n", high - 68
    printf "  <rect class=\"program\" x=\"154\" y=\"%d\" width=\"22\" height=\"14\" rx=\"3\"/>\n", high - 80
    printf "  <text class=\"legend\" x=\"184\" y=\"%d\">a program</text>\n", high - 68
    printf "  <text class=\"legend\" x=\"24\" y=\"%d\">%s</text>\n", high - 42, \
        "A crate stands on those that its arrows lead to."
    printf "  <text class=\"legend\" x=\"24\" y=\"%d\">%s</text>\n", high - 22, \
        "An arrow that follows from others is left out."
}

{ read_crates() }

END {
    reduce()
    set_layers()
    set_places()
    set_order()
    set_x()
    high = 40 + top * 84 + 32 + 100
    if (wide < 440) wide = 440
    draw_head(high)
    for (k = 1; k <= links; k++) draw_link(k)
    for (p = 1; p <= places; p++) if (place[p] != "") draw_box(p)
    draw_legend(high)
    print "</svg>"
}
