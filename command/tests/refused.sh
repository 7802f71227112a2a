#!/usr/bin/env bash
# refused.sh: refused texts on ./bench. What is printed and what is said beside it were written by hand, from 01 and from what stands in each
# text. Its last line is `refused.sh: N tried, M differences`.
# shellcheck source-path=SCRIPTDIR source=common.sh
. "$(dirname "$0")/common.sh"

# refused NAME ROWS WORDS FORMAT: a text, in the shell's way of writing, that prints these rows; the words go behind the text's name
refused() {
    # shellcheck disable=SC2059
    printf "$4" >"$room/x.txt"
    refused_file "$1" "$2" "$3"
}

# refused_file NAME ROWS WORDS: the same of what stands in x.txt already
refused_file() {
    outcome "$1" 1 "$2" "bench: x.txt$3" "$root/bench" x.txt
}

# lines COUNT LINE: a line so many times, after line 1
lines() {
    printf 'A\t8\n'
    yes "$2" | head -n "$1"
}

cd "$room" || exit 2

windows="a carriage return before the line feed, as Windows writes them; save it with Unix line ends"
refused "Windows line ends" "E 10 1" ", line 1: $windows" 'A\t8\r\n1\t3\t2\r\n'
refused "one Windows line end" "E 10 3" ", line 3: $windows" 'A\t8\n1\t3\t2\n2\t2\t1\r\n'
refused "carriage returns alone" "E 10 1" ", line 1: carriage returns in place of line feeds; save it with Unix line ends" 'A\t8\r1\t3\t2\r'
refused "a carriage return within" "E 10 2" ", line 2: a carriage return, at byte 4 of the line, where only digits and tabs stand" 'A\t8\n1\t3\r\t2\n'

refused "spaces" "E 10 1" ", line 1: a space, at byte 2 of the line; numbers are parted by single tabs" 'A 8\n1 3 2\n'
refused "spaces in a step" "E 10 2" ", line 2: a space, at byte 2 of the line; numbers are parted by single tabs" 'A\t8\n1 3 2\n'
refused "a space at the end" "E 10 3" ", line 3: a space, at byte 6 of the line; numbers are parted by single tabs" 'A\t8\n1\t3\t2\n2\t2\t1 \n'

refused "a byte order mark" "E 10 1" ", line 1: a byte order mark, EF BB BF, before the first character; save it as UTF-8 without one" \
    '\357\273\277A\t8\n1\t3\t2\n'
refused "UTF-16, low byte first" "E 10 1" ", line 1: the byte order mark of UTF-16, FF FE; save it as UTF-8 without one" \
    '\377\376A\0\t\0008\0\n\000'
refused "UTF-16, high byte first" "E 10 1" ", line 1: the byte order mark of UTF-16, FE FF; save it as UTF-8 without one" \
    '\376\377\0A\0\t\0008\0\n'
refused "UTF-16 without a mark" "E 10 1" ", line 1: this looks like UTF-16 without a byte order mark; save it as UTF-8" 'A\0\t\0008\0\n\000'
refused "the other UTF-16 without a mark" "E 10 1" ", line 1: this looks like UTF-16 without a byte order mark; save it as UTF-8" \
    '\0A\0\t\0008\0\n'
refused "a byte over 127" "E 10 2" ", line 2: the byte FF, at byte 5 of the line, where only digits and tabs stand" 'A\t8\n1\t3\t\3772\n'
refused "a zero byte" "E 10 2" ", line 2: a zero byte, at byte 4 of the line, as binary files have; step text has none" 'A\t8\n1\t3\0002\n'
refused "a small binary file" "E 10 1" ", line 1: a zero byte, at byte 8 of the line, as binary files have; step text has none" \
    '\177ELF\002\001\001\000\000\000'

answers="line 1 is A, a tab and the account answers"
refused "an empty text" "E 10 1" ", line 1: the text is empty; $answers" ''
refused "a small a" "E 10 1" ", line 1: a small a; line 1 begins with a capital A" 'a\t8\n1\t3\t2\n'
refused "no line 1" "E 10 1" ", line 1: the text begins with a step; $answers" '1\t3\t2\n2\t2\t1\n'
refused "another letter" "E 10 1" ", line 1: it begins with the character B; $answers" 'B\t8\n'
refused "a tab before the A" "E 10 1" ", line 1: it begins with a tab; $answers" '\tA\t8\n'
refused "A alone" "E 10 1" ", line 1: the account answers are missing; $answers" 'A\n1\t3\t2\n'
refused "A and a tab" "E 10 1" ", line 1: a tab at the end of the line" 'A\t\n1\t3\t2\n'
refused "no tab after A" "E 10 1" ", line 1: after the A stands the character 8, and not a tab" 'A8\n1\t3\t2\n'
refused "two answers" "E 10 1" ", line 1: 2 numbers after the A; line 1 has one, the account answers" 'A\t8\t1\n'
refused "answers over 65,535" "E 10 1" ", line 1: the number 65536; 65,535 is the most" 'A\t65536\n1\t3\t2\n'
refused "answers with a needless 0" "E 10 1" ", line 1: the number 08 has a needless leading 0" 'A\t08\n'
refused "two lists in one" "E 10 3" ", line 3: a second line that begins with A; only line 1 does" 'A\t8\n1\t3\t2\nA\t8\n1\t3\t2\n'

refused "a comment" "E 10 1" ", line 1: a comment; step text has none" '# an honest session\nA\t8\n'
refused "a comment with slashes" "E 10 2" ", line 2: a comment; step text has none" 'A\t8\n// an honest session\n1\t3\t2\n'
refused "one slash is no comment" "E 10 2" ", line 2: the character /, at byte 1 of the line, where only digits and tabs stand" 'A\t8\n/1\t3\n'
refused "line 1 empty" "E 10 1" ", line 1: an empty line" '\nA\t8\n'
refused "an empty line" "E 10 3" ", line 3: an empty line" 'A\t8\n1\t3\t2\n\n2\t2\t1\n'
refused "an empty line at the end" "E 10 3" ", line 3: an empty line" 'A\t8\n1\t3\t2\n\n'
refused "no line feed at the end" "E 10 3" ", line 3: the last line has no line feed at its end" 'A\t8\n1\t3\t2\n2\t2\t1'
refused "line 1 without its line feed" "E 10 1" ", line 1: the last line has no line feed at its end" 'A\t8'

refused "65536" "E 10 2" ", line 2: the number 65536; 65,535 is the most" 'A\t8\n1\t65536\t2\n'
refused "99999" "E 10 3" ", line 3: the number 99999; 65,535 is the most" 'A\t8\n1\t65535\t2\n99999\n'
refused "a needless 0" "E 10 2" ", line 2: the number 03 has a needless leading 0" 'A\t8\n1\t03\t2\n'
refused "two zeros" "E 10 2" ", line 2: the number 00 has a needless leading 0" 'A\t8\n1\t0\t00\n'
refused "six digits" "E 10 2" ", line 2: a number of 6 digits, at byte 3 of the line; 5 is the most" 'A\t8\n1\t000001\t2\n'
refused "8 numbers" "E 10 2" ", line 2: 8 numbers; a step has at most 7, its code and six arguments" 'A\t8\n1\t3\t2\t0\t0\t0\t0\t0\n'
refused "a plus" "E 10 2" ", line 2: the sign +, at byte 1 of the line, where only digits and tabs stand" 'A\t8\n+1\t3\t2\n'
refused "a minus" "E 10 2" ", line 2: the sign -, at byte 3 of the line, where only digits and tabs stand" 'A\t8\n1\t-3\t2\n'
refused "a letter" "E 10 3" ", line 3: the character x, at byte 1 of the line, where only digits and tabs stand" 'A\t8\n1\t3\t2\nx\n'
refused "commas" "E 10 2" ", line 2: the character ,, at byte 2 of the line, where only digits and tabs stand" 'A\t8\n1,3,2\n'
refused "a tab at the start" "E 10 2" ", line 2: a tab at the start of the line" 'A\t8\n\t1\t3\t2\n'
refused "a tab at the end" "E 10 2" ", line 2: a tab at the end of the line" 'A\t8\n1\t3\t2\t\n'
refused "a tab after 7 numbers" "E 10 2" ", line 2: a tab at the end of the line" 'A\t8\n1\t3\t2\t0\t0\t0\t0\t\n'
refused "two tabs" "E 10 2" ", line 2: two tabs in a row, at byte 2 of the line; numbers are parted by single tabs" 'A\t8\n1\t\t3\t2\n'
refused "the first unreadable line counts" "E 10 2" ", line 2: the character x, at byte 1 of the line, where only digits and tabs stand" \
    'A\t8\nx\n\n'

head -c 16384 /dev/zero | tr '\0' x >x.txt
refused_file "16,384 bytes, unreadable" "E 10 1" ", line 1: it begins with the character x; $answers"
head -c 16385 /dev/zero | tr '\0' x >x.txt
refused_file "16,385 bytes, and unreadable too" "E 11 0" ": 16,385 bytes, and a text has at most 16,384"
head -c 5000000 /dev/zero >x.txt
refused_file "five megabytes of zeros" "E 11 0" ": 5,000,000 bytes, and a text has at most 16,384; there are zero bytes in it, so it is a binary file or UTF-16, and no step text"
lines 1025 $'1\t3\t2' >x.txt
refused_file "1,025 steps" "E 11 0" ": 1,025 steps, and a list has at most 1,024; line 1026 is the first too many"
lines 1500 $'1\t3\t2' >x.txt
refused_file "1,500 steps" "E 11 0" ": 1,500 steps, and a list has at most 1,024; line 1026 is the first too many"
{ lines 1024 $'1\t3\t2' && echo; } >x.txt
refused_file "1,024 steps and an empty line" "E 10 1026" ", line 1026: an empty line"
{ printf 'A\t8\n1\t3\t2\n1\t3\t02\n' && yes 5 | head -n 1100; } >x.txt
refused_file "a needless 0 before 1,024 steps are over" "E 10 3" ", line 3: the number 02 has a needless leading 0"

# from standard input, which has no name; the length is known of a file, and not of a pipe
from_file() { "$root/bench" <x.txt; }
# shellcheck disable=SC2002
from_pipe() { cat x.txt | "$root/bench" -; }
outcome "standard input" 1 "E 10 3" "bench: standard input, line 3: the number 02 has a needless leading 0" from_pipe
head -c 16385 /dev/zero | tr '\0' 1 >x.txt
outcome "standard input, a long file" 1 "E 11 0" "bench: standard input: 16,385 bytes, and a text has at most 16,384" from_file
outcome "standard input, a long pipe" 1 "E 11 0" "bench: standard input: more than 16,384 bytes, and a text has at most 16,384" from_pipe

# what is said must not contradict the program: where nothing wrong is seen that is said, of texts that are not refused in truth
said() { od -An -v -tu1 x.txt | awk -v number="$1" -v line="$2" -v size='' -f "$root/command/why.awk" | tr '\t' ' '; }
printf 'A\t8\n1\t3\t2\n' >x.txt
tried=$((tried + 3))
[ "$(said 10 2)" = ", line 2: this line is refused, and nothing wrong was seen in its bytes" ] || differs "a good line: $(said 10 2)"
[ "$(said 10 3)" = ", line 3: the text is refused here, and it has no such line" ] || differs "no such line: $(said 10 3)"
[ "$(said 11 0)" = ": the text is refused as too long, and nothing of that was seen in its bytes" ] || differs "a short text: $(said 11 0)"
finish
