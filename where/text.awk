# Reads plan texts and listings line by line, and says where one is not of its form: what where.awk and listing.awk
# share. The program that is run with it sets
#
#   longest                the most bytes that count
#   whole                  what the text is called, the text or the listing
#   label, above           what stands before the number of a line, and the number of lines that stand above the text
#                          where it is a part of another; the text's own lines are counted from 1
#   kinds, name            the kinds of lines, in their order, and the word that each begins with
#   parts_of, form_of      the parts of a line of each kind, and its form in words
#   least, most            the kinds that may stand first; then those that may stand next
#
# The text comes through od, as numbers: not every awk can read a NUL, or tell whether the last line feed is there.
# Bytes that are not printable, and the backslash, are shown as \xNN. Columns count bytes, from 1.

# ---- reading ----

# a file's name as a word of the shell
function quoted(file,    parts, part, i, word) {
    parts = split(file, part, "'")
    word = "'" part[1]
    for (i = 2; i <= parts; i++)
        word = word "'\\''" part[i]
    return word "'"
}

# Reads a text: its bytes and line feeds are counted, its lines kept as they are shown, and line and column of the byte
# that is too many noted, 0 if none is. Says whether this worked.
function read_text(file,    command, i, all) {
    split("", line)
    split("", cut)
    size = feeds = column = over = over_column = 0
    command = "od -An -v -tu1 -N " (longest + widest) " <" quoted(file) " && echo whole"
    while ((command | getline) > 0) {
        if ($1 == "whole")
            all = 1
        else
            for (i = 1; i <= NF; i++)
                take($i + 0)
    }
    close(command)
    return all
}

# takes the next byte of the text
function take(byte) {
    column++
    if (++size == longest + 1) {
        over = feeds + 1
        over_column = column
    }
    if (byte == 10) {
        feeds++
        column = 0
    } else if (column <= widest)
        line[feeds + 1] = line[feeds + 1] shown[byte]
    else
        cut[feeds + 1] = 1
}

# whether this word comes next in `text`, from column `at` on; then goes behind it
function word_comes(word,    have) {
    have = substr(text, at, length(word))
    if (have == word) {
        at += length(word)
        return 1
    }
    if (have == substr(word, 1, length(have)))
        ended = 1
    return 0
}

# whether a number comes next; then goes behind it and keeps it as the line's next figure
function number_comes(    digits) {
    match(substr(text, at) ".", /[^0-9]/)
    digits = substr(text, at, RSTART - 1)
    if (at > length(text))
        ended = 1
    if (digits == "" || length(digits) > 9 || digits ~ /^0./)
        return 0
    at += length(digits)
    figure[++figures] = digits + 0
    return 1
}

# Whether a part of a line comes next: a blank (_), a number (N), a word, or one of several words (all|any); which one
# is kept as the line's next choice.
function part_comes(part,    words, word, i) {
    ended = 0
    if (part == "_")
        return word_comes(" ")
    if (part == "N")
        return number_comes()
    words = split(part, word, "|")
    for (i = 1; i <= words; i++)
        if (word_comes(word[i])) {
            if (words > 1)
                choice[++choices] = i
            return 1
        }
    return 0
}

# Whether `text` is a line of kind k. Two parts stand for several: `always` also for a condition with its value, and
# `column` for any number of them, each behind a blank, and the bracket behind the last. If it is not, `at` is the
# column from which on it differs, `wanted` is the part that was expected there, none if the line's end was, and
# `ended` is 1 if the line only ends too early.
function is_line(k,    todo, part) {
    at = 1
    figures = choices = 0
    for (todo = parts_of[k] " "; todo != ""; ) {
        part = substr(todo, 1, index(todo, " ") - 1)
        todo = substr(todo, length(part) + 2)
        if (part == "always" && substr(text, at, 1) == "(")
            todo = "( true|false _ N ) " todo
        else if (part == "column" && substr(text, at, 1) == " ")
            todo = "_ ( true|false _ N ) column " todo
        else if (!part_comes(part == "column" ? ")" : part)) {
            wanted = part
            return 0
        }
    }
    wanted = ""
    return at > length(text)
}

# the kind that `text` begins as, 0 if none
function kind_of_text(    k) {
    for (k = 1; k <= kinds; k++)
        if (index(text, "(" name[k]) == 1)
            return k
    return 0
}

# whether a line of the kinds from `least` to `most` could begin with `text`
function may_begin(    k) {
    for (k = least; k <= most; k++)
        if (index("(" name[k], text) == 1)
            return 1
    return text == ""
}

# Whether line n is of the form and of a kind that may stand there: `found` is the kind that it begins as, `fits` is 1
# if it lacks nothing but its line feed, `ended` is 1 if it only ends too early. The bytes that are too many are left
# out.
function line_comes(n) {
    text = n == over ? substr(line[n], 1, over_column - 1) : line[n]
    found = kind_of_text()
    fits = 0
    if (found < least || found > most) {
        ended = may_begin()
        return 0
    }
    fits = is_line(found)
    return fits && n != over && n <= feeds
}

# ---- saying ----

function say(words) {
    print "  " words
}

# a line with its number
function numbered(n) {
    return label "line " n (above ? " (line " (n + above) " of the whole text)" : "") ":" \
        (line[n] == "" ? "" : " " line[n]) (cut[n] ? " .. (cut here)" : "")
}

# says that line n fails, and why
function fail(n, words) {
    print numbered(n)
    say(words)
    return 1
}

# what was expected, in words
function wanted_words() {
    if (wanted == "")
        return "the end of the line"
    if (wanted == "_")
        return "a blank"
    if (wanted == "N")
        return "a number of " digits_of_number
    if (wanted == "always")
        return "always, (true N) or (false N)"
    if (wanted == "column")
        return "\")\", or (true N) or (false N) behind a blank"
    sub(/[|]/, "\" or \"", wanted)
    return "\"" wanted "\""
}

# why a line that begins as it may is not of the form
function wrong_inside(n,    why) {
    why = "from column " at " on, expected " wanted_words()
    if (ended && cut[n])
        return "the line is longer than any of its form"
    if (ended)
        return (n > feeds ? whole : "the line") " ends too early: " why
    if (substr(text, at, 4) == "\\x0d")
        return why "; a carriage return (\\x0d) stands there, and must not"
    return why
}

# why a line that is not empty does not begin as it may, `otherwise` where it is not known
function wrong_beginning(n, otherwise) {
    if (text == "")
        return "the line is empty"
    if (n > feeds && ended)
        return whole " ends within this line"
    if (index(text, "\\xef\\xbb\\xbf") == 1)
        return "a byte order mark (\\xef\\xbb\\xbf) stands here, and must not"
    return otherwise == "" ? "no line that may stand here begins so" : otherwise
}

# says which lines may stand behind those that are of the form
function say_kinds(    k) {
    say("expected a line of " (least == most ? "this form" : "one of these forms") ", N a number of " digits_of_number)
    for (k = least; k <= most; k++)
        say("  " form_of[k])
}

BEGIN {
    widest = 120
    digits_of_number = "one to nine digits without a needless leading zero"
    for (b = 0; b < 256; b++)
        shown[b] = b >= 32 && b <= 126 && b != 92 ? sprintf("%c", b) : sprintf("\\x%02x", b)
}
