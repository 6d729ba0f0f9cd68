# The form of a text: which lines are good, and the number of the first bad one. Read by tests/desk/run.
# Inputs and answers are written as printf takes them; a byte that can't be seen stands as \r, \t or \nnn in octal.

# A first line that is bad, with a good step after it.
bad_first_line() { # NAME LINE
    case_of "line 1: $1" "$2\no 0 1\n" 'bad line 1\n'
}

# A step line that is bad, between good ones.
bad_step() { # NAME LINE
    case_of "step: $1" "2 4 1\no 0 1\n$2\nc 0\n" 'bad line 3\n'
}

# Every byte of the 256 in one place; those in GOOD (octal, \nnn) give one answer and all others another.
only_these_bytes() { # NAME BEFORE AFTER GOOD ANSWER-IF-GOOD ANSWER-IF-NOT
    local number byte answer status=0
    : >"$room/expected-of-all"
    : >"$room/got-of-all"
    for ((number = 0; number < 256; number++)); do
        printf -v byte '\\%03o' "$number"
        answer=$6
        [[ $4 == *"$byte"* ]] && answer=$5
        printf -- "$2$byte$3" >"$room/input"
        run_program <"$room/input" || status=$?
        {
            printf 'byte %s: ' "$byte"
            cat "$room/got"
        } >>"$room/got-of-all"
        printf 'byte %s: %b' "$byte" "$answer" >>"$room/expected-of-all"
    done
    mv "$room/expected-of-all" "$room/expected"
    mv "$room/got-of-all" "$room/got"
    settle "$1" "$status"
}

# Nothing at all, and where lines end
case_of 'empty input' '' 'bad line 1\n'
case_of 'line 1 and no steps: no answer at all' '2 4 1\n' ''
case_of 'no line feed after line 1' '2 4 1' 'bad line 1\n'
case_of 'no line feed after a later line' '2 4 1\no 0 1\nc 0' 'bad line 3\n'
case_of 'no line feed after a lone letter' '2 4 1\nc' 'bad line 2\n'
case_of 'a lone space at the end' '2 4 1\no 0 1\n ' 'bad line 3\n'
case_of 'a lone line feed' '\n' 'bad line 1\n'
case_of 'an empty line first' '\n2 4 1\no 0 1\n' 'bad line 1\n'
case_of 'an empty line in the middle' '2 4 1\no 0 1\n\nc 0\n' 'bad line 3\n'
case_of 'an empty line last' '2 4 1\no 0 1\n\n' 'bad line 3\n'
case_of 'CR LF' '2 4 1\r\no 0 1\r\n' 'bad line 1\n'
case_of 'CR LF after a step' '2 4 1\no 0 1\r\n' 'bad line 2\n'
case_of 'CR for the line feed' '2 4 1\ro 0 1\r' 'bad line 1\n'
case_of 'LF CR' '2 4 1\n\ro 0 1\n\r' 'bad line 2\n'

# The first bad line is named, and nothing is answered
case_of 'two bad lines' '2 4 1\no 0 1\nbad\nworse\n' 'bad line 3\n'
case_of 'a bad line 1 and a bad line 2' '2 4\nbad\n' 'bad line 1\n'
case_of 'a bad line 10' '2 4 1\nc 0\nc 0\nc 0\nc 0\nc 0\nc 0\nc 0\nc 0\nbad\nc 0\n' 'bad line 10\n'

# Spaces
bad_first_line 'tabs' '2\t4\t1'
bad_first_line 'a tab at the end' '2 4 1\t'
bad_first_line 'two spaces' '2  4 1'
bad_first_line 'a space at the end' '2 4 1 '
bad_first_line 'a space in front' ' 2 4 1'
bad_first_line 'a space alone' ' '
bad_first_line 'commas' '2,4,1'
bad_step 'tabs' 'o\t0\t1'
bad_step 'a tab at the end' 'o 0 1\t'
bad_step 'a tab in front' '\to 0 1'
bad_step 'two spaces after the letter' 'o  0 1'
bad_step 'two spaces between numbers' 'o 0  1'
bad_step 'a space at the end' 'o 0 1 '
bad_step 'a space in front' ' o 0 1'
bad_step 'a space alone' ' '
bad_step 'no space after the letter' 'o0 1'
bad_step 'no space between numbers but a comma' 'o 0,1'

# Numbers
bad_first_line 'a plus' '+2 4 1'
bad_first_line 'a minus' '-2 4 1'
bad_first_line 'a leading zero' '2 04 1'
bad_first_line 'a word' 'two 4 1'
bad_step 'a plus' 'o 0 +1'
bad_step 'a minus' 'o 0 -1'
bad_step 'minus zero' 'o -0 1'
bad_step 'a minus alone' 'o 0 -'
bad_step 'a leading zero' 'o 0 01'
bad_step 'a leading zero before ten digits' 'w 0 7 04294967295 1'
bad_step '00' 'o 00 1'
bad_step 'a point' 'o 0 1.0'
bad_step 'an exponent' 'o 0 1e0'
bad_step 'hexadecimal' 'o 0 0x1'
bad_step 'a letter after digits' 'o 0 1a'
bad_step 'a letter for a number' 'o 0 o'
bad_step '4294967296' 'w 0 7 4294967296 1'
bad_step '4294967296 at the end of a line' 'x 0 1 4294967296'
bad_step '4294967297, which is 1 and a lost carry' 'w 0 7 4294967297 1'
bad_step '4294967300' 'w 0 7 4294967300 1'
bad_step 'ten digits, too large' 'w 0 7 9999999999 1'
bad_step 'eleven digits' 'w 0 7 10000000000 1'
bad_step 'eleven digits that begin as a good number' 'w 0 7 42949672950 1'
bad_step '20 digits' 'w 0 7 10000000000000000000 1'
bad_step '20 digits, 2 to the 64th' 'w 0 7 18446744073709551616 1'
bad_step '20 digits, 2 to the 64th and 1' 'w 0 7 18446744073709551617 1'
bad_step '40 digits' 'w 0 7 1111111111222222222233333333334444444444 1'
case_of '0 as a number' '2 4 1\no 0 0\n' '0 0 0 0 0\n'
case_of 'values of all lengths are read and written whole' \
    '1 16 1\no 0 0\nw 0 0 0 1\nw 0 0 9 1\nw 0 0 10 1\nw 0 0 65536 1\nw 0 0 102030405 1\nw 0 0 1000000000 1\nw 0 0 4294967290 1\nw 0 0 4294967295 1\nr 0 0 1\n' \
    '0 0 0 0 0\n0 0 0 1 0\n0 0 0 2 9\n0 0 0 3 10\n0 0 0 4 65536\n0 0 0 5 102030405\n0 0 0 6 1000000000\n0 0 0 7 4294967290\n0 0 0 8 4294967295\n0 0 0 8 4294967295\n'

# Bytes that are no text
bad_first_line 'a NUL in it' '2 4\000 1'
bad_first_line 'a NUL at its end' '2 4 1\000'
bad_step 'a NUL for a space' 'o\0000 1'
bad_step 'a NUL at its end' 'o 0 1\000'
bad_step 'a NUL alone' '\000'
case_of 'a NUL for the line feed of line 1' '2 4 1\000o 0 1\n' 'bad line 1\n'
case_of 'a NUL for the last line feed' '2 4 1\no 0 1\000' 'bad line 2\n'
case_of 'NULs after the last line feed' '2 4 1\no 0 1\n\000\000\000' 'bad line 3\n'
bad_first_line 'a byte order mark' '\357\273\2772 4 1'
bad_first_line 'a digit with its high bit set' '2 4 \261'
bad_step 'a letter with its high bit set' '\357 0 1'
bad_step 'a space with its high bit set' 'o 0\2401'
bad_step 'byte 255' 'o 0 1\377'
bad_step 'a letter of two bytes' '\303\266 0 1'
only_these_bytes 'every byte as the letter' '2 4 1\n' ' 0 0\n' '\157' '0 0 0 0 0\n' 'bad line 2\n'
only_these_bytes 'every byte as a space' '2 4 1\no 0' '0\n' '\040' '0 0 0 0 0\n' 'bad line 2\n'
only_these_bytes 'every byte as a number' '2 4 1\no 0 ' '\n' '\060\061\062\063\064\065\066\067\070\071' '0 0 0 0 0\n' 'bad line 2\n'
only_these_bytes 'every byte as a line feed' '2 4 1' 'o 0 0\n' '\012' '0 0 0 0 0\n' 'bad line 1\n'

# Letters, and how many numbers follow
bad_first_line 'a letter' 'o 0 1'
bad_first_line 'a letter before the numbers' 'n 2 4 1'
bad_first_line 'too few numbers' '2 4'
bad_first_line 'one number' '2'
bad_first_line 'too many numbers' '2 4 1 0'
bad_first_line 'a space for the third number' '2 4 '
bad_step 'numbers alone' '2 4 1'
bad_step 'an unknown letter' 'a 0 1'
bad_step 'a comment' '# open'
bad_step 'two letters' 'oo 0 1'
bad_step 'a word' 'open 0 1'
bad_step 'two steps on one line' 'o 0 1 c 0'
bad_step 'O' 'O 0 1'
bad_step 'C' 'C 0'
bad_step 'R' 'R 0 7 1'
bad_step 'W' 'W 0 7 50 1'
bad_step 'X' 'X 0 1 9'
bad_step 'o alone' 'o'
bad_step 'c alone' 'c'
bad_step 'r alone' 'r'
bad_step 'w alone' 'w'
bad_step 'x alone' 'x'
bad_step 'c and a space' 'c '
bad_step 'o, too few numbers' 'o 0'
bad_step 'o, too many numbers' 'o 0 1 0'
bad_step 'c, too many numbers' 'c 0 0'
bad_step 'r, too few numbers' 'r 0 7'
bad_step 'r, too many numbers' 'r 0 7 1 0'
bad_step 'w, too few numbers' 'w 0 7 50'
bad_step 'w, too many numbers' 'w 0 7 50 1 0'
bad_step 'x, too few numbers' 'x 0 1'
bad_step 'x, too many numbers' 'x 0 1 9 0'

# The limits of line 1: servers, places, slots. The least and the greatest are good, and are taken as said.
bad_first_line 'no servers' '0 4 1'
bad_first_line '17 servers' '17 4 1'
bad_first_line '4294967295 servers' '4294967295 4 1'
bad_first_line '4294967298 servers' '4294967298 4 1'
bad_first_line 'no places' '2 0 1'
bad_first_line '129 places' '2 129 1'
bad_first_line '1024 places' '2 1024 1'
bad_first_line '4294967295 places' '2 4294967295 1'
bad_first_line '4294967300 places' '2 4294967300 1'
bad_first_line 'no slots' '2 4 0'
bad_first_line '17 slots' '2 4 17'
bad_first_line '4294967295 slots' '2 4 4294967295'
bad_first_line '4294967297 slots' '2 4 4294967297'
bad_first_line 'all past the limit' '17 129 17'
case_of '1 server' '1 4 1\no 0 0\nw 0 7 50 1\nw 0 7 50 2\nx 0 1 9\n' '0 0 0 0 0\n0 0 0 1 50\n2 0 0 0 0\n2 0 0 0 0\n'
case_of '16 servers' '16 4 1\no 0 0\nw 0 7 50 32768\nw 0 7 50 65536\nx 15 0 9\nx 15 16 9\n' '0 0 0 0 0\n0 15 15 1 50\n2 0 0 0 0\n0 0 15 0 1\n2 0 0 0 0\n'
case_of '1 place' '2 1 1\no 0 0\nw 0 7 50 1\nw 0 7 60 1\n' '0 0 0 0 0\n0 0 0 1 50\n7 0 0 0 0\n'
case_of '1 slot' '2 4 1\no 0 0\no 1 0\n' '0 0 0 0 0\n2 0 0 0 0\n'
case_of '16 slots' '2 4 16\no 15 0\no 16 0\n' '0 0 0 0 0\n2 0 0 0 0\n'
case_of 'all at their least' '1 1 1\no 0 0\nw 0 0 0 1\nw 0 0 0 1\nr 0 0 1\n' '0 0 0 0 0\n0 0 0 1 0\n7 0 0 0 0\n0 0 0 1 0\n'
case_of 'all at the limit' '16 128 16\no 15 15\nw 15 255 4294967295 32768\nr 15 255 65535\n' '0 0 0 0 0\n0 15 15 1 4294967295\n0 15 15 1 4294967295\n'
