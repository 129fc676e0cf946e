# Says where a refused plan text fails: awk -v refused=N -f text.awk -f where.awk PLAN
#
# PLAN is a plan text that the planner refused with N, from 1 to 9. Prints the first line at which that sentence of
# document 01 fails (with the head of document 02), by number, the line itself, and what was expected there; for 4, 5
# and 7 also the earlier line that it collides with. Prints nothing for another N, and where the text cannot be read.
# Of several plans each is told. RISCADRU_PLAN of the environment, if it is there, stands before the line's number.

# ---- reading ----

# Reads the lines of the form, up to the first that is not or the end: `good` is how many there are, with the kind and
# the figures of each.
function read_lines(    n, i) {
    split("", count)
    good = 0
    least = most = 1
    for (n = 1; line_comes(n); n++) {
        good = n
        least = found == 1 ? 2 : found
        most = kinds
        kind[n] = found
        line_of[found, count[found]++] = n
        for (i = 1; i <= 4; i++)
            figure_of[n, i] = i <= figures ? figure[i] : -1
    }
}

# ---- 1: the form ----

# Says what to do where the part head of a plan line is missing, as in every text of the form that document 01 has, or
# stands elsewhere than between byte and pick.
function say_head(    here) {
    here = substr(text, at, 4)
    if (wanted == "head" && here == "pick" && !index(text, "(head")) {
        say("the part head is missing: write (head 0) after (byte " figure[1] ")")
        say("head is the number of bytes that a frame has beside its data, from " smallest[1, 2] " to " largest[1, 2])
    } else if (wanted == "head" && here == "pick" || wanted == "byte" && here == "head")
        say("the part head must stand after byte and before pick")
}

# why a line that begins as another kind does cannot stand here, nothing if it begins as none
function wrong_kind() {
    if (found > most)
        return "the plan line must be the first"
    if (found == 1)
        return "only the first line is a plan line"
    if (found)
        return "a " name[found] " line cannot stand below " (name[least] == "edge" ? "an " : "a ") name[least] " line"
    return ""
}

# the first line that is not of the form, or the last line feed that is missing, or the byte that is too many
function form(    n) {
    n = good + 1
    if (n == over && (fits || ended))
        fail(n, "column " over_column " is byte " (longest + 1) " of the text, and a text has at most " longest)
    else if (fits)
        fail(n, "the line feed at the end of the last line is missing")
    else if (found >= least && found <= most) {
        fail(n, wrong_inside(n))
        say_head()
        say("the form of the line: " form_of[found])
    } else if (n <= feeds || text != "" || size == 0) {
        fail(n, size ? wrong_beginning(n, wrong_kind()) : "the text is empty: the plan line is missing")
        if (index(text, "(delay ") == 1)
            say("a listing begins here; where it is to be checked, an empty line stands before it")
        say_kinds()
    }
}

# ---- 2 to 9: the lines ----

# 2: the first line that is too many of its kind, or behind the place where a slot or process line is missing
function counts(n, k,    needed) {
    for (needed = 2; needed <= 3; needed++)
        if (k > needed && !count[needed])
            return fail(n, (k > kinds ? "the text ends, and" : "above this line") " there is no " name[needed] \
                " line, and a text has 1 to " limit[needed])
    if (k > kinds || ++seen[k] <= limit[k])
        return 0
    return fail(n, "this is " name[k] " line " seen[k] ", and a text has at most " limit[k])
}

# 3: the first line with a figure outside its range
function sizes(n, k,    i, value) {
    for (i = 1; i <= 4; i++) {
        value = figure_of[n, i]
        if ((k, i) in size_name && (value < smallest[k, i] || value > largest[k, i]))
            return fail(n, size_name[k, i] " is " value ", and must be from " smallest[k, i] " to " largest[k, i])
    }
    return 0
}

# the range of figure i in the lines of kind k, by the name of its part
function range(k, i, word, from, to) {
    size_name[k, i] = word
    smallest[k, i] = from
    largest[k, i] = to
}

# whether a figure is not below the number of lines of kind k
function too_great(n, word, value, k) {
    if (value < count[k])
        return 0
    return fail(n, word " is " value ", and must be below " (count[k] + 0) ", the number of " name[k] " lines")
}

# whether an earlier line has this key
function taken(n, key, words) {
    if (!(key in first_with)) {
        first_with[key] = n
        return 0
    }
    fail(n, words ":")
    say(numbered(first_with[key]))
    return 1
}

# 4: the first line with a node that has no slot, or the slot of a node that has one
function nodes(n, k,    node) {
    if (k != 2 && k != 3)
        return 0
    node = figure_of[n, 1]
    return too_great(n, "node", node, 2) || \
        k == 2 && taken(n, node, "node " node " has a slot already, and each node has exactly one")
}

# 5: the first condition of no process, or of one that decides a condition
function conditions(n, k,    process) {
    if (k != 4)
        return 0
    process = figure_of[n, 1]
    return too_great(n, "process", process, 3) || \
        taken(n, process, "process " process " decides a condition already, and decides at most one")
}

# 6: the first edge that names no process, or whose from is not below to
function ends(n, k,    from, to) {
    if (k != 5)
        return 0
    from = figure_of[n, 1]
    to = figure_of[n, 2]
    return too_great(n, "from", from, 3) || too_great(n, "to", to, 3) || \
        from >= to && fail(n, "from is " from " and to is " to ", and from must be below to")
}

# 7: the first edge with both ends of an earlier one
function pairs(n, k,    from, to) {
    if (k != 5)
        return 0
    from = figure_of[n, 1]
    to = figure_of[n, 2]
    return taken(n, from " " to, "an edge from " from " to " to " is there already; put both messages into one")
}

# the process that decides a condition, -1 if there is no such condition
function decider(condition) {
    return condition < count[4] ? figure_of[line_of[4, condition], 1] : -1
}

# 8: the first edge whose when names a condition that its from process does not decide
function whens(n, k,    from, condition, own) {
    if (k != 5 || figure_of[n, 4] < 0)
        return 0
    from = figure_of[n, 1]
    condition = figure_of[n, 4]
    if (decider(condition) == from)
        return 0
    if (decider(condition) < 0)
        fail(n, "there is no condition " condition ": the number of condition lines is " (count[4] + 0) \
            ", and they are numbered from 0")
    else
        fail(n, "condition " condition " is decided by process " decider(condition) " (line " line_of[4, condition] \
            "), and this edge is from process " from)
    own = 0
    while (own < count[4] && decider(own) != from)
        own++
    if (own < count[4])
        say("process " from " decides condition " own ": write (true " own "), (false " own ") or always")
    else
        say("process " from " decides no condition: write always")
    return 1
}

# the node of a process
function node_of(process) {
    return figure_of[line_of[3, process], 1]
}

# 9: the first message between nodes that is longer than its sender's slot
function lengths(n, k,    node, slot, bytes) {
    if (k != 5)
        return 0
    node = node_of(figure_of[n, 1])
    if (node == node_of(figure_of[n, 2]))
        return 0
    for (slot = 2; slot <= count[2] + 1; slot++) {
        bytes = figure_of[slot, 2]
        if (figure_of[slot, 1] == node && figure_of[n, 3] > bytes)
            return fail(n, "bytes is " figure_of[n, 3] ", and the slot of its sender's node " node " (line " slot \
                ") has " bytes)
    }
    return 0
}

# whether the sentence of the refusal fails at line n, which is of kind k
function fails(n, k) {
    if (refused == 2)
        return counts(n, k)
    if (refused == 3)
        return sizes(n, k)
    if (refused == 4)
        return nodes(n, k)
    if (refused == 5)
        return conditions(n, k)
    if (refused == 6)
        return ends(n, k)
    if (refused == 7)
        return pairs(n, k)
    if (refused == 8)
        return whens(n, k)
    return lengths(n, k)
}

# the first line at which the sentence of the refusal fails; for 2, the end of the text counts as a line of a last kind
function lines(    n) {
    split("", seen)
    split("", first_with)
    kind[good + 1] = kinds + 1
    for (n = 1; n <= good + (refused == 2); n++)
        if (fails(n, kind[n]))
            return
}

BEGIN {
    longest = 16384
    whole = "the text"
    label = ENVIRON["RISCADRU_PLAN"]
    kinds = split("plan slot process condition edge", name, " ")
    parts_of[1] = "( plan _ ( byte _ N ) _ ( head _ N ) _ ( pick _ urgency|number ) )"
    parts_of[2] = "( slot _ ( node _ N ) _ ( bytes _ N ) )"
    parts_of[3] = "( process _ ( node _ N ) _ ( ticks _ N ) _ ( waits _ all|any ) )"
    parts_of[4] = "( condition _ ( process _ N ) )"
    parts_of[5] = "( edge _ ( from _ N ) _ ( to _ N ) _ ( bytes _ N ) _ ( when _ always ) )"
    form_of[1] = "(plan (byte N) (head N) (pick urgency)), or pick number"
    form_of[2] = "(slot (node N) (bytes N))"
    form_of[3] = "(process (node N) (ticks N) (waits all)), or waits any"
    form_of[4] = "(condition (process N))"
    form_of[5] = "(edge (from N) (to N) (bytes N) (when always)), or when (true N), or when (false N)"
    split("1 8 64 6 128", limit, " ")
    range(1, 1, "byte", 1, 1000)
    range(1, 2, "head", 0, 16)
    range(2, 2, "bytes", 1, 64)
    range(3, 2, "ticks", 1, 100000)
    range(5, 3, "bytes", 1, 64)
    for (a = 1; a < ARGC; a++)
        if (refused >= 1 && refused <= 9 && read_text(ARGV[a])) {
            read_lines()
            if (refused == 1)
                form()
            else if (good && good == feeds && column == 0 && !over)
                lines()
        }
}
