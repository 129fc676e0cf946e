# Says where a listing of the form fails, by 13 to 20 and 22; listing.awk has read plan and listing.

# ---- who runs ----

# whether condition k is true in combination c
function is_true(c, k) {
    return int(c / 2 ^ k) % 2
}

# which processes are active and which edges carry in combination c
function who_runs(c,    p, e, into, carrying) {
    split("", into)
    split("", carrying)
    # an edge goes from a lower process to a higher one, so that the lower ones are known
    for (p = 0; p < processes; p++) {
        for (e = 0; e < edges; e++)
            if (to[e] == p) {
                carries[c, e] = active[c, from[e]] && (asked[e] < 0 || is_true(c, asked[e]) == asked_true[e])
                into[p]++
                carrying[p] += carries[c, e]
            }
        active[c, p] = any[p] && into[p] ? carrying[p] > 0 : carrying[p] + 0 == into[p] + 0
    }
}

# the process of a row: the one that starts, or the sender of the item
function process_of(r) {
    if (r < processes)
        return r
    return r < processes + edges ? from[r - processes] : decider[r - processes - edges]
}

# the bytes of an item
function bytes_of(r) {
    return r < processes + edges ? bytes[r - processes] : 1
}

# what a row is, in words
function row_words(r) {
    if (r < processes)
        return "process " r
    return r < processes + edges ? "edge " (r - processes) : "condition " (r - processes - edges)
}

# whether an edge is within one node
function is_local(e) {
    return node[from[e]] == node[to[e]]
}

# a combination, with the value of each condition
function combination_words(c,    k, words) {
    words = "in combination " c
    for (k = 0; k < conditions; k++)
        words = words (k ? " (" : ", (") (is_true(c, k) ? "true " : "false ") k ")"
    return words
}

# ---- 13 and 14: the entries ----

# 13: the first entry of a local edge, or with a place that no frame has
function wrong_entries(    i) {
    for (i = 1; i <= entries; i++) {
        if (row[i] >= processes && row[i] < processes + edges && is_local(row[i] - processes))
            return fail(entry_line[i], row_words(row[i]) " is local: processes " from[row[i] - processes] " and " \
                to[row[i] - processes] " are both on node " node[process_of(row[i])] ", and nothing is sent")
        if (place[i] > 63)
            return fail(entry_line[i], "place is " place[i] ", and must be from 0 to 63")
    }
    return 0
}

# whether an entry's column is met in a combination
function is_met(i, c,    key, part, n) {
    key = column_of[i]
    if (!((key, c) in met)) {
        met[key, c] = 1
        for (n = split(key, part, " "); n > 0; n--)
            if (is_true(c, part[n] + 0) != (part[n] ~ /t/))
                met[key, c] = 0
    }
    return met[key, c]
}

# For combination c: the met entries in the order of their lines, for each row how many there are, and the first two.
function meet(c,    i) {
    who_runs(c)
    split("", met_entry)
    split("", met_count)
    split("", items_at)
    met_entries = 0
    for (i = 1; i <= entries; i++)
        if (is_met(i, c)) {
            met_entry[++met_entries] = i
            if (++met_count[row[i]] <= 2)
                met_of[c, row[i], met_count[row[i]]] = i
        }
}

# whether a row is due in combination c
function is_due(c, r) {
    if (r < processes || r >= processes + edges)
        return active[c, process_of(r)]
    return carries[c, r - processes] && !is_local(r - processes)
}

# why a row is due in a combination, or is not
function due_words(r, due,    is) {
    is = due ? " is active" : " is not active"
    if (r < processes)
        return row_words(r) is " there"
    if (r < processes + edges)
        return row_words(r) (due ? " carries" : " does not carry") " there"
    return "process " process_of(r) ", which decides " row_words(r) "," is " there"
}

# 14: the first row that has not the entries in combination c that it must have
function wrong_rows(c,    r, due, count) {
    for (r = 0; r < processes + edges + conditions; r++) {
        due = is_due(c, r)
        count = met_count[r] + 0
        if (count == due)
            continue
        if (!count) {
            print "no entry of " row_words(r) " is met " combination_words(c)
            say(due_words(r, due) ", and needs exactly one entry whose column is met")
        } else if (!due) {
            fail(entry_line[met_of[c, r, 1]], combination_words(c) ", this column is met")
            say(due_words(r, due) ", and must have no entry whose column is met")
        } else {
            fail(entry_line[met_of[c, r, 2]], combination_words(c) ", this is the second entry of " row_words(r) \
                " whose column is met, and there must be exactly one:")
            say(numbered(entry_line[met_of[c, r, 1]]))
        }
        return 1
    }
    return 0
}

# ---- 15 to 20: the met entries of a combination, in the order of their lines ----

# the tick of a row's met entry
function tick_of(c, r) {
    return tick[met_of[c, r, 1]]
}

function end_of(c, p) {
    return tick_of(c, p) + ticks[p]
}

# the tick at which the item of a row arrives
function arrival(c, r) {
    return tick_of(c, r) + lasts[node[process_of(r)]]
}

# the tick from which on the value of a condition is known, -1 if it never is
function known_from(c, k) {
    return active[c, decider[k]] ? arrival(c, processes + edges + k) : -1
}

# the tick at which a carrying edge delivers
function delivery(c, e,    end, known) {
    if (!is_local(e))
        return arrival(c, processes + e)
    end = end_of(c, from[e])
    known = asked[e] < 0 ? 0 : known_from(c, asked[e])
    return known > end ? known : end
}

# 15: whether a met entry's column has a value that is not known by its tick
function unknown_value(c, i,    part, n, parts, known) {
    parts = split(column_of[i], part, " ")
    for (n = 1; n <= parts; n++) {
        known = known_from(c, part[n] + 0)
        if (known < 0)
            return fail(entry_line[i], combination_words(c) ", condition " (part[n] + 0) " is never known: process " \
                decider[part[n] + 0] ", which decides it, is not active")
        if (known > tick[i])
            return fail(entry_line[i], combination_words(c) ", condition " (part[n] + 0) " is known from tick " known \
                " on, and this is at tick " tick[i])
    }
    return 0
}

# 16: whether a met entry's process starts before an input has come, or its item goes before its sender's end
function too_early(c, i,    e, p) {
    p = process_of(row[i])
    if (row[i] >= processes)
        return end_of(c, p) > tick[i] && fail(entry_line[i], combination_words(c) ", the sender, process " p \
            ", ends at tick " end_of(c, p) ", and this is sent at tick " tick[i])
    for (e = 0; e < edges; e++)
        if (to[e] == p && carries[c, e] && delivery(c, e) > tick[i])
            return fail(entry_line[i], combination_words(c) ", edge " e " from process " from[e] \
                " delivers at tick " delivery(c, e) ", and this starts at tick " tick[i])
    return 0
}

# 17: whether a met entry's item goes at a tick at which its sender's slot does not begin
function outside_slot(c, i,    n, past, next_one) {
    n = node[process_of(row[i])]
    past = (tick[i] % round - offset[n] + round) % round
    if (row[i] < processes || past == 0)
        return 0
    next_one = tick[i] - past + round
    return fail(entry_line[i], combination_words(c) ", the slot of node " n \
        (next_one < round ? " first begins at tick " : " begins at ticks " (next_one - round) " and ") next_one \
        ", and not at " tick[i])
}

# 18: whether a met entry's process overlaps one of an earlier line on its node
function overlaps(c, i,    j, other, p, q) {
    p = row[i]
    for (j = 1; p < processes && met_entry[j] != i; j++) {
        other = met_entry[j]
        q = row[other]
        if (q < processes && node[q] == node[p] && end_of(c, p) > tick[other] && end_of(c, q) > tick[i]) {
            fail(entry_line[i], combination_words(c) ", process " p " runs on node " node[p] " from tick " tick[i] \
                " to " end_of(c, p) ", and process " q " from " tick[other] " to " end_of(c, q) ":")
            say(numbered(entry_line[other]))
            return 1
        }
    }
    return 0
}

# 19: whether a met entry's item passes its slot's last byte, or has a byte of an item of an earlier line
function wrong_place(c, i,    n, last, part, parts, j, other) {
    if (row[i] < processes)
        return 0
    n = node[process_of(row[i])]
    last = place[i] + bytes_of(row[i]) - 1
    if (last >= room[n])
        return fail(entry_line[i], combination_words(c) ", the item has places " place[i] " to " last \
            ", and the last place of node " n "'s slot is " (room[n] - 1))
    parts = split(items_at[tick[i], n], part, " ")
    for (j = 1; j <= parts; j++) {
        other = part[j]
        if (place[other] <= last && place[i] < place[other] + bytes_of(row[other])) {
            fail(entry_line[i], combination_words(c) ", the item has places " place[i] " to " last ", and another of " \
                "this frame has places " place[other] " to " (place[other] + bytes_of(row[other]) - 1) ":")
            say(numbered(entry_line[other]))
            return 1
        }
    }
    items_at[tick[i], n] = items_at[tick[i], n] " " i
    return 0
}

# whether the sentence of the refusal applies to a met entry of combination c
function applies(c, i) {
    if (refused == 15)
        return unknown_value(c, i)
    if (refused == 16)
        return too_early(c, i)
    if (refused == 17)
        return outside_slot(c, i)
    if (refused == 18)
        return overlaps(c, i)
    return wrong_place(c, i)
}

# 14 to 19: the lowest combination in which the sentence applies, and the first line at which it does
function in_combinations(    c, j) {
    for (c = 0; c < combinations; c++) {
        meet(c)
        if (refused == 14) {
            if (wrong_rows(c))
                return
        } else
            for (j = 1; j <= met_entries; j++)
                if (applies(c, met_entry[j]))
                    return
    }
}

# 20: the delay line
function wrong_delay(    c, p, greatest, words) {
    greatest = -1
    for (c = 0; c < combinations; c++) {
        meet(c)
        for (p = 0; p < processes; p++)
            if (active[c, p] && end_of(c, p) > greatest) {
                greatest = end_of(c, p)
                words = combination_words(c) ", process " p " ends at tick " greatest
            }
    }
    if (greatest != delay)
        fail(1, "the greatest delay is " greatest ": " words)
}

# ---- 22: the frames and the passed lines ----

# the frames that the entries give, in the order of their ticks
function give_frames(    i, j, last, t) {
    split("", frame_end)
    given = 0
    for (i = 1; i <= entries; i++) {
        if (row[i] < processes)
            continue
        t = tick[i]
        if (!(t in frame_end)) {
            frame_end[t] = 0
            frame_node[t] = node[process_of(row[i])]
            for (j = given++; j >= 1 && frame_tick[j] > t; j--)
                frame_tick[j + 1] = frame_tick[j]
            frame_tick[j + 1] = t
        }
        last = place[i] + bytes_of(row[i])
        if (last > frame_end[t])
            frame_end[t] = last
    }
}

# 22: the first frame line that is not the one that the entries give there, or else the passed lines
function wrong_frames(    f, n, t, part, wanted_frame) {
    give_frames()
    for (f = 1; f <= given || f <= frames; f++) {
        n = good - frames + f
        t = frame_tick[f]
        if (f > given)
            return fail(n, given ? "the entries give no frame behind that of tick " frame_tick[given] : \
                "the entries give no frame")
        if (f <= frames && stated[f] == t " " frame_node[t] " " frame_end[t])
            continue
        wanted_frame = "(frame " t " (node " frame_node[t] ") (bytes " frame_end[t] "))"
        return fail(n, f > frames ? "the listing ends, and the entries give another frame: " wanted_frame : \
            "the frame that the entries give here is " wanted_frame)
    }
    fail(2, "the frame lines are those that the entries give, so that this count, or one in a passed line below, is " \
        "not the plan's")
    say("./riscadru plan prints the counts of all nodes")
}
