# Says where a refused listing fails: awk -v refused=N [-v above=L] -f text.awk -f table.awk -f listing.awk PLAN LISTING
#
# LISTING is a listing that the checking program refused with N, from 13 to 22, for the plan text PLAN, in which 1 to 9
# find nothing. Prints the first line at which that sentence of documents 01 and 02 fails, by number, the line itself,
# and why. 14 to 19 are told of the lowest combination in which they apply, and in it of the first line, or for 14 of
# the first row; 14 also the first entry of a row that has two, or that there is no line if it has none; 18 and 19 also
# the earlier line that it collides with. Prints nothing for another N, and where a text cannot be read. Of several
# pairs of plan and listing each is told. L lines stand above the listing where it is a part of a whole text;
# RISCADRU_LISTING of the environment, if it is there, stands before the line's number.

# ---- the plan ----

# Keeps a line of the plan, which is of the form: `part` has its figures.
function take_plan_line(kind, part, words) {
    if (kind == "plan") {
        byte = part[2]
        head = part[3]
    } else if (kind == "slot") {
        lasts[part[2]] = (part[3] + head) * byte
        offset[part[2]] = round
        room[part[2]] = part[3]
        round += lasts[part[2]]
        nodes++
    } else if (kind == "process") {
        node[processes] = part[2]
        ticks[processes] = part[3]
        any[processes++] = index(words, "any") > 0
    } else if (kind == "condition")
        decider[conditions++] = part[2]
    else {
        from[edges] = part[2]
        to[edges] = part[3]
        bytes[edges] = part[4]
        asked[edges] = index(words, "always") ? -1 : part[5]
        asked_true[edges++] = index(words, "(true") > 0
    }
}

# Reads a plan text. Says whether this worked.
function read_plan(file,    n, part) {
    longest = 16384
    if (!read_text(file))
        return 0
    round = nodes = processes = conditions = edges = 0
    for (n = 1; n <= feeds; n++) {
        split(line[n], part, /[^0-9]+/)
        match(line[n], /[a-z]+/)
        take_plan_line(substr(line[n], RSTART, RLENGTH), part, line[n])
    }
    combinations = 2 ^ conditions
    return 1
}

# ---- 21: the form ----

# what is wrong with a number of a line of kind k that is otherwise of the form, nothing if nothing is
function wrong_numbers(k,    most_of, i) {
    if (k == passed)
        return figure[1] == counts ? "" : figure[1] < nodes ? passed_line() " must stand here" : \
            "there is no node " figure[1] ": " lines_of(k)
    if (k < start || k == frame)
        return k == frame && frames == most_frames ? "a listing has at most " most_frames " frame lines" : ""
    if (entries == most_entries)
        return "a listing has at most " most_entries " entries: start, send and tell lines"
    most_of = k == start ? processes : k == start + 1 ? edges : conditions
    if (figure[1] >= most_of)
        return "there is no " thing[k] " " figure[1] ": " lines_of(k)
    if (k == last_kind && figure[1] < last_number)
        return "a line of " thing[k] " " figure[1] " cannot stand below one of " thing[k] " " last_number
    for (i = 2; i <= choices + 1; i++) {
        if (figure[i] >= conditions)
            return "there is no condition " figure[i] ": " lines_of(frame - 1)
        if (i > 2 && figure[i] <= figure[i - 1])
            return "condition " figure[i] " stands behind condition " figure[i - 1] ", and they must ascend"
    }
    return ""
}

# how many nodes, processes, edges or conditions the plan has
function lines_of(k,    count) {
    count = k == passed ? nodes : k == start ? processes : k == start + 1 ? edges : conditions
    return "the number of " (k == passed ? "slot" : thing[k]) " lines in the plan is " count \
        ", and " (k == passed ? "the nodes" : "they") " are numbered from 0"
}

# the passed line that comes next
function passed_line() {
    return "the passed line of node " counts
}

# keeps a line of kind k, which is line n
function take_line(n, k,    i, words) {
    if (k == frame)
        stated[++frames] = figure[1] " " figure[2] " " figure[3]
    if (k == passed)
        counts++
    else if (k < start)
        delay = figure[1]
    if (k < start || k == frame)
        return
    entry_line[++entries] = n
    row[entries] = figure[1] + (k > start) * processes + (k > start + 1) * edges
    for (i = 1; i <= choices; i++)
        words = words " " figure[i + 1] (choice[i] == 1 ? "t" : "f")
    column_of[entries] = words
    tick[entries] = figure[choices + 2]
    place[entries] = k == start ? 0 : figure[choices + 3]
    last_kind = k
    last_number = figure[1]
}

# Reads the lines of the form, up to the first that is not or the end; `good` is how many there are, and `why` says
# what is wrong with the numbers of the line behind them, nothing if nothing is.
function read_listing(    n, comes) {
    good = counts = entries = frames = last_kind = 0
    least = most = 1
    for (n = 1; ; n++) {
        comes = line_comes(n)
        why = fits ? wrong_numbers(found) : ""
        if (!comes || why != "")
            return
        good = n
        take_line(n, found)
        least = found >= start ? found : counts < nodes ? passed : start
        most = least == passed ? passed : kinds
    }
}

# whether the whole listing is of the form
function of_the_form() {
    return why == "" && good == feeds && column == 0 && least >= start
}

# why a line that begins as another kind does cannot stand here, nothing if it begins as none
function wrong_kind() {
    if (!found)
        return ""
    if (least < start)
        return least == 1 ? "the delay line must stand first" : passed_line() " must stand here"
    if (found == passed && least == start)
        return "the passed lines of all nodes of the plan, as many as " nodes ", stand above"
    return "a " name[found] " line cannot stand below a " name[least == start ? least - 1 : least] " line"
}

# 21: the first line that is not of the form, or a line or the last line feed that is missing
function form(    n) {
    n = good + 1
    if (why != "")
        fail(n, why)
    else if (fits)
        fail(n, "the line feed at the end of the last line is missing")
    else if (found >= least && found <= most) {
        fail(n, wrong_inside(n))
        say("the form of the line: " form_of[found])
    } else if (n > feeds && text == "") {
        if (least >= start)
            return
        fail(n, !size ? "the listing is empty" : "the listing ends, and " \
            (least == passed ? passed_line() : "the delay line") " is missing")
        if (!size && above)
            say("the listing stands behind the plan, with an empty line between them")
        say_kinds()
    } else {
        fail(n, wrong_beginning(n, wrong_kind()))
        if (text == "")
            say("an empty line stands between the plan and the listing only")
        say_kinds()
    }
}

BEGIN {
    whole = "the listing"
    label = ENVIRON["RISCADRU_LISTING"]
    most_entries = 3000
    most_frames = 2000
    kinds = split("delay passed start send tell frame", name, " ")
    split("- node process edge condition -", thing, " ")
    passed = 2
    start = 3
    frame = kinds
    parts_of[1] = "( delay _ N )"
    parts_of[2] = "( passed _ ( node _ N ) _ N )"
    parts_of[3] = "( start _ N _ ( when column _ ( at _ N ) )"
    parts_of[4] = "( send _ N _ ( when column _ ( at _ N ) _ ( place _ N ) )"
    parts_of[5] = "( tell _ N _ ( when column _ ( at _ N ) _ ( place _ N ) )"
    parts_of[6] = "( frame _ N _ ( node _ N ) _ ( bytes _ N ) )"
    form_of[1] = "(delay N)"
    form_of[2] = "(passed (node N) N)"
    form_of[3] = "(start N (when) (at N)), or with conditions: (when (true N) (false N) ..)"
    form_of[4] = "(send N (when) (at N) (place N)), or with conditions: (when (true N) (false N) ..)"
    form_of[5] = "(tell N (when) (at N) (place N)), or with conditions: (when (true N) (false N) ..)"
    form_of[6] = "(frame N (node N) (bytes N))"
    for (a = 1; a + 1 < ARGC; a += 2) {
        if (refused < 13 || refused > 22 || !read_plan(ARGV[a]))
            continue
        longest = 439242 # the lines of a listing of the form have no more bytes
        if (!read_text(ARGV[a + 1]))
            continue
        read_listing()
        if (refused == 21)
            form()
        else if (!of_the_form())
            continue
        else if (refused == 13)
            wrong_entries()
        else if (refused == 20)
            wrong_delay()
        else if (refused == 22)
            wrong_frames()
        else
            in_combinations()
    }
}
