# Draws a planned table as an SVG picture: awk [-v only=C] -f draw.awk PLAN LISTING
#
# PLAN is a plan text and LISTING what the planning program prints for it. There is one panel for each combination of the conditions, or
# for combination C alone: a row for each unit with its processes, a row for the bus with its frames, a line where each value becomes known,
# and a line at the worst delay. Combination C has condition k true where bit k of C is 1.
#
# The box of a frame is as long as its slot, with the head. It is not divided into head and data: a plan does not say how many bytes of
# the head go before the data and how many after them. Where there is a head, the line above the panels names it.

function escaped(text) {
    gsub(/&/, "\\&amp;", text)
    gsub(/</, "\\&lt;", text)
    gsub(/>/, "\\&gt;", text)
    return text
}

# how far to the right a tick lies
function across(tick) {
    return sprintf("%.2f", left + tick * wide / last)
}

function say(x, y, class, text) {
    printf "<text x=\"%s\" y=\"%s\" class=\"%s\">%s</text>\n", x, y, class, escaped(text)
}

function upright(tick, from, to, class) {
    printf "<line x1=\"%s\" y1=\"%s\" x2=\"%s\" y2=\"%s\" class=\"%s\"/>\n", across(tick), from, across(tick), to, class
}

# a box from a tick to another, with a name in it as far as there is room, and all of it where the pointer rests on it
function box(from, to, y, class, name, all) {
    printf "<g><title>%s</title><rect x=\"%s\" y=\"%s\" width=\"%.2f\" height=\"%d\" class=\"%s\"/>", escaped(all), across(from), y, (to - from) * wide / last, tall - 8, class
    if (length(name) * 7 + 4 <= (to - from) * wide / last)
        printf "<text x=\"%s\" y=\"%s\" class=\"name\">%s</text>", across((from + to) / 2), y + tall - 13, escaped(name)
    print "</g>"
}

# whether condition k is true in combination c
function value(c, k) {
    return int(c / 2 ^ k) % 2
}

# whether the column of entry i is met in combination c
function met(i, c,    k) {
    for (k = 0; k < conditions; k++)
        if (known[i, k] && wanted[i, k] != value(c, k))
            return 0
    return 1
}

# the ticks of node n's slot: its bytes and those of the head
function slot_ticks(n) {
    return (slot_bytes[n] + head) * byte
}

# the combination in words
function values_of(c,    k, text) {
    if (conditions == 0)
        return "no conditions"
    for (k = 0; k < conditions; k++)
        text = text (k ? ", " : "") "condition " k (value(c, k) ? " true" : " false")
    return text
}

# when the last process of combination c ends
function end_of(c,    i, end) {
    end = 0
    for (i = 0; i < entries; i++)
        if (kind[i] == "start" && met(i, c) && at[i] + ticks[row[i]] > end)
            end = at[i] + ticks[row[i]]
    return end
}

# a round number of ticks between two marks of the scale
function step_of(total,    step) {
    step = 1
    while (total / step > 12)
        step *= (substr(step, 1, 1) == "2") ? 2.5 : 2
    return step
}

function draw_scale(top, bottom,    tick) {
    for (tick = 0; tick <= last; tick += step) {
        upright(tick, top, bottom, "scale")
        say(across(tick), bottom + 13, "mark", tick)
    }
}

function draw_rows(top,    n) {
    for (n = 0; n < nodes; n++)
        say(8, top + n * tall + tall - 12, "row", "unit " n)
    say(8, top + nodes * tall + tall - 12, "row", "bus")
    for (n = 0; n <= nodes + 1; n++)
        printf "<line x1=\"%s\" y1=\"%s\" x2=\"%s\" y2=\"%s\" class=\"rule\"/>\n", left, top + n * tall, left + wide, top + n * tall
}

# the frame that begins at a tick: what it carries in combination c
function draw_frame(tick, c, top,    i, node, name) {
    for (i = 0; i < entries; i++)
        if (kind[i] != "start" && at[i] == tick && met(i, c)) {
            node = (kind[i] == "send") ? unit[sender[row[i]]] : unit[decider[row[i]]]
            name = name (name == "" ? "" : ", ") kind[i] " " row[i]
        }
    box(tick, tick + slot_ticks(node), top + nodes * tall + 4, "frame", name, name ": frame of unit " node ", ticks " tick " to " tick + slot_ticks(node))
}

# the starts, frames and known values of combination c
function draw_combination(c, top, bottom,    i, known_at, drawn) {
    for (i = 0; i < entries; i++) {
        if (!met(i, c))
            continue
        if (kind[i] == "start") {
            box(at[i], at[i] + ticks[row[i]], top + unit[row[i]] * tall + 4, "process", row[i], "process " row[i] ": ticks " at[i] " to " at[i] + ticks[row[i]])
            continue
        }
        if (!((at[i]) in drawn)) {
            drawn[at[i]] = 1
            draw_frame(at[i], c, top)
        }
        if (kind[i] == "tell") {
            known_at = at[i] + slot_ticks(unit[decider[row[i]]])
            upright(known_at, top, bottom, "known")
            say(across(known_at), top - 3 - row[i] % 2 * 12, "value", row[i] (value(c, row[i]) ? " true" : " false"))
        }
    }
}

function draw_panel(c, top,    bottom, end) {
    bottom = top + (nodes + 1) * tall
    end = end_of(c)
    print "<g class=\"combination\">"
    say(8, top - 30, "title", "combination " c ": " values_of(c) "; ends at " end (end == delay ? ", the worst delay" : ""))
    draw_scale(top, bottom)
    draw_rows(top)
    draw_combination(c, top, bottom)
    upright(delay, top - 14, bottom, "delay")
    print "</g>"
}

# the picture's width in ticks: to the worst delay, or to the last end of a frame
function find_last(    i, end, node) {
    last = delay
    for (i = 0; i < entries; i++)
        if (kind[i] != "start") {
            node = (kind[i] == "send") ? unit[sender[row[i]]] : unit[decider[row[i]]]
            end = at[i] + slot_ticks(node)
            if (end > last)
                last = end
        }
    if (last == 0)
        last = 1
}

BEGIN {
    nodes = processes = conditions = edges = entries = file = 0
    left = 64
    wide = 1000
    tall = 30
}

{
    gsub(/[()]/, " ")
    $0 = $0
}

FNR == 1 { file++ }

file == 1 && $1 == "plan" { byte = $3; head = $5 }
file == 1 && $1 == "slot" { slot_bytes[$3] = $5; nodes++ }
file == 1 && $1 == "process" { unit[processes] = $3; ticks[processes] = $5; processes++ }
file == 1 && $1 == "condition" { decider[conditions] = $3; conditions++ }
file == 1 && $1 == "edge" { sender[edges] = $3; edges++ }

file == 2 && $1 == "refused" { refused = $2 }
file == 2 && $1 == "delay" { delay = $2 }
file == 2 && $1 == "passed" { passed = passed (passed == "" ? "" : ",") " " $4 " (node " $3 ")" }
file == 2 && ($1 == "start" || $1 == "send" || $1 == "tell") {
    kind[entries] = $1
    row[entries] = $2
    for (field = 4; $field == "true" || $field == "false"; field += 2) {
        known[entries, $(field + 1)] = 1
        wanted[entries, $(field + 1)] = ($field == "true")
    }
    at[entries] = $(field + 1)
    entries++
}

END {
    if (refused != "" || delay == "") {
        print "riscadru: there is no table to draw" (refused == "" ? "" : ": the plan is refused with " refused) > "/dev/stderr"
        exit 1
    }
    combinations = 2 ^ conditions
    first = 0
    count = combinations
    if (only != "") {
        if (only !~ /^[0-9]+$/ || only + 0 >= combinations) {
            print "riscadru: the plan has combinations 0 to " combinations - 1 ", not " only > "/dev/stderr"
            exit 1
        }
        first = only + 0
        count = 1
    }
    find_last()
    step = step_of(last)
    panel = (nodes + 1) * tall + 76
    printf "<svg xmlns=\"http://www.w3.org/2000/svg\" width=\"%d\" height=\"%d\" font-family=\"sans-serif\">\n", left + wide + 40, count * panel + 40
    print "<style>"
    print "rect.process { fill: #9ecae1; stroke: #3182bd; } rect.frame { fill: #fdd0a2; stroke: #e6550d; }"
    print "line.rule { stroke: #999; } line.scale { stroke: #e5e5e5; } line.known { stroke: #31a354; stroke-dasharray: 4 3; } line.delay { stroke: #c00; stroke-width: 2; }"
    print "text { font-size: 12px; } text.name, text.mark, text.value { text-anchor: middle; } text.mark { font-size: 10px; fill: #666; } text.value { fill: #31a354; } text.title, text.top { font-weight: bold; } text.top { fill: #c00; }"
    print "</style>"
    print "<rect width=\"100%\" height=\"100%\" fill=\"white\"/>"
    say(8, 20, "top", "worst delay " delay " (red line), passed over" passed (head > 0 ? ", head " head : ""))
    for (c = first; c < first + count; c++)
        draw_panel(c, 84 + (c - first) * panel)
    print "</svg>"
}
