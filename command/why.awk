# What is wrong with a step text that the program refused, in one sentence, found by looking at its bytes.
#
# The input is the text as `od -An -v -tu1` writes it: each byte as a number. `number` and `line` are what the program printed behind E, and
# `size` is how many bytes the whole text has, or nothing where that is not known. What is printed goes behind the name of the text.
#
# The program decides, and this only explains: what is said is a fault of the very line that the program named, and where none is seen there
# that is said.

{
    for (i = 1; i <= NF; i++)
        byte[++bytes] = $i + 0
}

END {
    if (number == 11)
        print too_much()
    else
        print ", line " line ": " unreadable()
}

# a number with commas between the thousands
function grouped(n) {
    n = n ""
    return length(n) > 3 ? grouped(substr(n, 1, length(n) - 3)) "," substr(n, length(n) - 2) : n
}

# 11: over 16,384 bytes, which is seen before any line is, or over 1,024 steps
function too_much(    lines, i) {
    if (bytes > 16384)
        return ": " (size > 16384 ? grouped(size) : "more than 16,384") " bytes, and a text has at most 16,384" no_text()
    for (i = 1; i <= bytes; i++)
        lines += byte[i] == 10 || i == bytes
    if (lines > 1025)
        return ": " grouped(lines - 1) " steps, and a list has at most 1,024; line 1026 is the first too many"
    return ": the text is refused as too long, and nothing of that was seen in its bytes"
}

# so that nobody shortens a file that is no step text to begin with
function no_text(    i) {
    for (i = 1; i <= bytes; i++)
        if (byte[i] == 0)
            return "; there are zero bytes in it, so it is a binary file or UTF-16, and no step text"
}

# 10: the line. A fault of the whole file comes before one of the line, as every other line has it too
function unreadable(    why) {
    if (bytes == 0)
        return "the text is empty; line 1 is A, a tab and the account answers"
    if (!find())
        return "the text is refused here, and it has no such line"
    if (line == 1)
        why = encoding()
    if (why == "")
        why = any_line()
    if (why == "")
        why = line == 1 ? first_line() : step_line()
    if (why == "" && !ended)
        why = "the last line has no line feed at its end"
    return why == "" ? "this line is refused, and nothing wrong was seen in its bytes" : why
}

# finds the line: its bytes are those at first .. last, without the line feed, and `ended` says whether there is one
function find(    at, i) {
    at = 1
    for (i = 1; i < line; at++) {
        if (at > bytes)
            return 0
        i += byte[at] == 10
    }
    first = last = at
    while (last <= bytes && byte[last] != 10)
        last++
    ended = last <= bytes
    last--
    return first <= bytes
}

# how another program may have saved the text
function encoding() {
    if (byte[1] == 239 && byte[2] == 187 && byte[3] == 191)
        return "a byte order mark, EF BB BF, before the first character; save it as UTF-8 without one"
    if (byte[1] == 255 && byte[2] == 254 || byte[1] == 254 && byte[2] == 255)
        return "the byte order mark of UTF-16, " sprintf("%02X %02X", byte[1], byte[2]) "; save it as UTF-8 without one"
    if (bytes >= 4 && (wide(byte[1], byte[2]) && wide(byte[3], byte[4]) || wide(byte[2], byte[1]) && wide(byte[4], byte[3])))
        return "this looks like UTF-16 without a byte order mark; save it as UTF-8"
}

# whether two bytes are a character of step text as UTF-16 has it: the character and a zero byte
function wide(character, zero) {
    return zero == 0 && (character == 9 || character == 10 || character == 13 || character > 31 && character < 127)
}

# what makes any line unreadable, line 1 as well as a step
function any_line(    at) {
    if ((at = place_of(0)))
        return "a zero byte, at byte " at " of the line, as binary files have; step text has none"
    if (byte[first] == 35 || byte[first] == 47 && byte[first + 1] == 47 && first < last)
        return "a comment; step text has none"
    if (first > last)
        return "an empty line"
    if (byte[last] == 13 && ended)
        return "a carriage return before the line feed, as Windows writes them; save it with Unix line ends"
    if (place_of(13) && line == 1 && !ended)
        return "carriage returns in place of line feeds; save it with Unix line ends"
    if ((at = place_of(32)))
        return "a space, at byte " at " of the line; numbers are parted by single tabs"
}

# the first place of a byte in the line, from 1, or 0
function place_of(wanted,    i) {
    for (i = first; i <= last; i++)
        if (byte[i] == wanted)
            return i - first + 1
    return 0
}

# line 1 is A, a tab and one number
function first_line(    why) {
    if (byte[first] == 97)
        return "a small a; line 1 begins with a capital A"
    if (digit(byte[first]))
        return "the text begins with a step; line 1 is A, a tab and the account answers"
    if (byte[first] != 65)
        return "it begins with " named(byte[first]) "; line 1 is A, a tab and the account answers"
    if (first == last)
        return "the account answers are missing; line 1 is A, a tab and the account answers"
    if (byte[first + 1] != 9)
        return "after the A stands " named(byte[first + 1]) ", and not a tab"
    why = parts(first + 2)
    if (why == "" && count > 1)
        return grouped(count) " numbers after the A; line 1 has one, the account answers"
    return why
}

# every other line is 1 to 7 numbers
function step_line(    why) {
    if (byte[first] == 65)
        return "a second line that begins with A; only line 1 does"
    why = parts(first)
    if (why == "" && count > 7)
        return grouped(count) " numbers; a step has at most 7, its code and six arguments"
    return why
}

# the first fault of the parts between tabs, from a byte of the line on; `count` is how many there are
function parts(at,    from, why) {
    count = 0
    for (from = at; why == "" && from <= last + 1; from = at + 1) {
        count++
        for (at = from; at <= last && byte[at] != 9; at++)
            if (!digit(byte[at]))
                return named(byte[at]) ", at byte " (at - first + 1) " of the line, where only digits and tabs stand"
        why = at == from ? tabs(from) : size_of(from, at - from)
    }
    return why
}

# a part with nothing in it, by where it is
function tabs(at) {
    if (at == first)
        return "a tab at the start of the line"
    if (at > last)
        return "a tab at the end of the line"
    return "two tabs in a row, at byte " (at - first) " of the line; numbers are parted by single tabs"
}

# a number of so many digits: 1 to 5, no needless leading 0, at most 65,535
function size_of(from, digits,    text, i) {
    if (digits > 5)
        return "a number of " grouped(digits) " digits, at byte " (from - first + 1) " of the line; 5 is the most"
    for (i = 0; i < digits; i++)
        text = text (byte[from + i] - 48)
    if (digits > 1 && byte[from] == 48)
        return "the number " text " has a needless leading 0"
    if (text + 0 > 65535)
        return "the number " text "; 65,535 is the most"
}

function digit(code) {
    return code >= 48 && code <= 57
}

# a byte in words: as itself where it can be printed
function named(code) {
    if (code == 9)
        return "a tab"
    if (code == 13)
        return "a carriage return"
    if (code == 43 || code == 45)
        return "the sign " sprintf("%c", code)
    if (code > 32 && code < 127)
        return "the character " sprintf("%c", code)
    return "the byte " sprintf("%02X", code)
}
