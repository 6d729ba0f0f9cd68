# How long a text may be: 16,384 bytes, and 513 lines of them. Read by tests/desk/run.

# COUNT lines, all alike.
alike() { # COUNT LINE
    yes "$2" 2>/dev/null | head -n "$1" 2>/dev/null
}

# COUNT bytes, all alike, given as tr takes one.
bytes() { # COUNT BYTE
    head -c "$1" /dev/zero | tr '\000' "$2" 2>/dev/null
}

# Line 1, and COUNT steps that close a closed slot: each is answered 3.
closes() { # COUNT
    echo '2 4 1'
    alike "$1" 'c 0'
}

answers_to_closes() { # COUNT
    alike "$1" '3 0 0 0 0'
}

# 512 lines, which are 16,358 bytes: line 1 of six bytes, and 511 steps of 32 bytes that name no slot and are answered 2.
all_but_26_bytes() { # [LINE-1]
    echo "${1-2 4 1}"
    alike 511 'r 4294967295 4294967295 4294967'
}

too_long() {
    echo 'too long'
}

bad_line() { # NUMBER
    echo "bad line $1"
}

# Bytes
case_from '16,383 bytes, all lines good' <(all_but_26_bytes; echo 'r 4294967295 429496729 1') <(alike 512 '2 0 0 0 0') 16383
case_from '16,384 bytes, all lines good' <(all_but_26_bytes; echo 'r 4294967295 4294967295 1') <(alike 512 '2 0 0 0 0') 16384
case_from '16,384 bytes, the last line bad' <(all_but_26_bytes; echo 'r 4294967295 4294967295 x') <(bad_line 513) 16384
case_from '16,384 bytes, the last line without line feed' <(all_but_26_bytes; printf 'r 4294967295 4294967295 10') <(bad_line 513) 16384
case_from '16,384 bytes, line 1 bad' <(all_but_26_bytes '2 4 0'; echo 'r 4294967295 4294967295 1') <(bad_line 1) 16384
case_from '16,384 bytes, the last one an empty line 514' <(all_but_26_bytes; echo 'r 4294967295 429496729 1'; echo) <(too_long) 16384
case_from '16,384 bytes without a line feed' <(bytes 16384 1) <(bad_line 1) 16384
case_from '16,384 line feeds' <(bytes 16384 '\n') <(bad_line 1) 16384
case_from '16,384 NULs' <(bytes 16384 '\000') <(bad_line 1) 16384
case_from '16,384 bytes, line 2 very long' <(echo '2 4 1'; printf 'c '; bytes 16375 1; echo) <(bad_line 2) 16384
case_from '16,385 bytes, all lines good' <(all_but_26_bytes; echo 'r 4294967295 4294967295 10') <(too_long) 16385
case_from '16,385 bytes, the last line bad' <(all_but_26_bytes; echo 'r 4294967295 4294967295 1x') <(too_long) 16385
case_from '16,385 bytes, the last one alone without line feed' <(all_but_26_bytes; echo 'r 4294967295 4294967295 1'; printf 'c') <(too_long) 16385
case_from '16,385 bytes, line 1 bad' <(all_but_26_bytes '2 4 0'; echo 'r 4294967295 4294967295 10') <(too_long) 16385
case_from '16,385 bytes without a line feed' <(bytes 16385 1) <(too_long) 16385
case_from '16,385 line feeds' <(bytes 16385 '\n') <(too_long) 16385
case_from '16,385 NULs' <(bytes 16385 '\000') <(too_long) 16385
case_from '20,000 bytes in few lines' <(echo '2 4 1'; printf 'c '; bytes 19991 1; echo) <(too_long) 20000
case_from '20,000 bytes, line 1 bad' <(bytes 20000 '\n') <(too_long) 20000
case_from '32,768 bytes' <(bytes 32768 '\000') <(too_long) 32768
case_from '65,536 bytes and a good text' <(bytes 65536 '\n'; echo '2 4 1') <(too_long) 65542
case_from '100,000 bytes of good lines' <(echo '2 128 1'; alike 24998 'c 0') <(too_long) 100000

# Lines
case_from '511 steps' <(closes 511) <(answers_to_closes 511)
case_from '512 steps' <(closes 512) <(answers_to_closes 512)
case_from 'a good line 514' <(closes 513) <(too_long)
case_from 'a bad line 514' <(closes 512; echo 'bad') <(too_long)
case_from 'an empty line 514' <(closes 512; echo) <(too_long)
case_from 'a line 514 without line feed' <(closes 512; printf 'c 0') <(too_long)
case_from 'a line 514 of one NUL' <(closes 512; printf '\000') <(too_long)
case_from 'lines 514 and 515, both bad' <(closes 512; echo 'bad'; echo 'bad') <(too_long)
case_from '1,000 lines, all good' <(closes 999) <(too_long)
case_from 'a bad line 600 of 700' <(closes 598; echo 'bad'; alike 100 'c 0') <(too_long)
case_from 'a bad line 100' <(closes 98; echo 'bad') <(bad_line 100)
case_from 'a bad line 512 and an empty line 513' <(closes 510; echo 'bad'; echo) <(bad_line 512)
case_from 'a bad line 513' <(closes 511; echo 'bad') <(bad_line 513)
case_from 'an empty line 513' <(closes 511; echo) <(bad_line 513)
case_from 'a line 513 without line feed' <(closes 511; printf 'c 0') <(bad_line 513)
case_from 'a bad line 513 and a good line 514' <(closes 511; echo 'bad'; echo 'c 0') <(bad_line 513)
case_from 'a bad line 513 and a bad line 514' <(closes 511; echo 'bad'; echo 'bad') <(bad_line 513)
case_from 'a bad line 1 and 600 good ones' <(echo '2 4'; alike 600 'c 0') <(bad_line 1)
case_from 'a bad line 2 and 600 good ones' <(echo '2 4 1'; echo 'bad'; alike 600 'c 0') <(bad_line 2)

# 128 places: each is used, and none more
case_from '128 places' \
    <(echo '1 128 1'; echo 'o 0 0'; for clock in {1..129}; do echo "w 0 7 $clock 1"; done) \
    <(echo '0 0 0 0 0'; for clock in {1..128}; do echo "0 0 0 $clock $clock"; done; echo '7 0 0 0 0')

# A pipe gives a text in pieces, of any length and after any time.
case_by_pipe 'a text in two pieces' <(printf '2 4 1\no 0'; sleep 0.2; printf ' 1\nc 0\n') <(printf '0 0 0 0 0\n0 0 0 0 0\n')
case_by_pipe 'an empty pipe that is slow' <(sleep 0.2) <(bad_line 1)
case_by_pipe '16,384 bytes in two pieces' <(all_but_26_bytes; sleep 0.2; echo 'r 4294967295 4294967295 1') <(alike 512 '2 0 0 0 0')
case_by_pipe '16,385 bytes, the last one late' <(all_but_26_bytes; echo 'r 4294967295 4294967295 1'; sleep 0.2; echo) <(too_long)
case_by_pipe '100,000 bytes from a pipe' <(bytes 100000 '\n') <(too_long)
