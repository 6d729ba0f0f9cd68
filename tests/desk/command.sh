# The command ./desk: how it takes a script, how it refuses, and when it builds. Read by tests/desk/run.
# Nothing is built here: in front of the path stands an `rt` of each case's own.

kit=$room/kit
mkdir "$kit"

# The body of the `rt` that ./desk will find.
rt_is() { # SHELL-TEXT
    printf '#!/bin/sh\n%s\n' "$1" >"$kit/rt"
    chmod +x "$kit/rt"
}

# Runs a command on what comes to standard input; leaves its output in got, its messages in said, its status in status.
run_command() { # COMMAND...
    PATH=$kit:$PATH timeout 10 "$@" >"$room/got" 2>"$room/said"
    status=$?
}

# What the command just run printed is the file, and its messages are so many lines.
printed() { # NAME EXPECTED-FILE LINES-SAID
    cat "$2" >"$room/expected"
    if [ "$(wc -l <"$room/said")" -ne "$3" ]; then
        fail "$1" "$3 lines expected on standard error"
        show 'standard error:' "$room/said" 1
    else
        settle "$1" "$status"
    fi
}

# The command just run ended with status 2, printed nothing, and its messages have these words.
refused() { # NAME WORDS
    if [ "$status" -eq 2 ] && [ ! -s "$room/got" ] && [[ $(<"$room/said") == *"$2"* ]]; then
        pass
    else
        fail "$1" "status $status; expected: 2, nothing on standard output, and '$2' on standard error"
        show 'standard output:' "$room/got" 1
        show 'standard error:' "$room/said" 1
    fi
}

# The command just run explained itself and ended with status 0.
explained() { # NAME
    if [ "$status" -eq 0 ] && [[ $(<"$room/got") == *examples/README.md* ]] && [ ! -s "$room/said" ]; then
        pass
    else
        fail "$1" "status $status; expected: 0, an explanation, and no messages"
    fi
}

rows=$PWD/examples/ten-rows
rt_is 'echo "the sources look newer than crates/desk/out/desk; build it, or call ./desk once"; exit 1'

# Of this folder
run_command ./desk examples/ten-rows.txt
printed './desk FILE' "$rows.out" 0
run_command ./desk <examples/two-sessions.txt
printed './desk < FILE' examples/two-sessions.out 0
run_command ./desk < <(cat examples/stale-server.txt)
printed './desk at the end of a pipe' examples/stale-server.out 0
run_command ./desk -h </dev/null
explained './desk -h'
run_command ./desk --help </dev/null
explained './desk --help'
run_command ./desk </dev/null
printed './desk with nothing on standard input' <(echo 'bad line 1') 0
run_command ./desk "$room/missing.txt"
refused './desk with a file that is not there' 'missing.txt'
run_command ./desk ''
refused './desk with an empty name' 'cannot read'
run_command ./desk examples
refused './desk with a folder' 'cannot read'
run_command ./desk examples/ten-rows.txt examples/ten-rows.txt
refused './desk with two files' 'one file'
echo 'desk: the reply could not be written' >"$room/expected"
./desk examples/ten-rows.txt 2>"$room/got" >/dev/full
settle 'a reply that finds no room where it goes is told' $?

# In a house of its own with the built program and one source, where dates can be set
house="$room/a house"
mkdir -p "$house/crates/desk/src" "$house/crates/desk/out"
cp desk "$house/desk"
cp "$program" "$house/built"
touch -d '2001-01-01' "$house/crates.txt" "$house/crates/desk/src/main.rt" "$house/crates/desk/src"
cp "$house/built" "$house/crates/desk/out/desk"
mkdir "$room/elsewhere"
cp "$rows.txt" "$room/elsewhere/script.txt"
ln -s "$house/desk" "$room/elsewhere/linked"

cd "$room/elsewhere" || exit 1
run_command '../a house/desk' script.txt
printed 'called from another folder, the file of that folder' "$rows.out" 0
run_command ./linked script.txt
printed 'called through a link' "$rows.out" 0

# A build talks on both outputs, and would swallow standard input if it were given it.
rt_is 'cat; echo proved; echo noise >&2; echo "$PWD: $*"; cp ../../built out/desk'
rm "$house/crates/desk/out/desk"
run_command '../a house/desk' <script.txt
printed 'the program is missing: it is built, in one line on standard error' "$rows.out" 1
printf 'proved\nnoise\n%s: run\n' "$house/crates/desk" >"$room/expected"
cp "$house/target/desk-build.log" "$room/got"
settle 'what the build says goes to its log' "$status"

# As rt does when a source has a new date and its old text: it succeeds and leaves the program as it is.
rt_is 'exit 0'
touch -d '2000-01-01' "$house/crates/desk/out/desk"
run_command '../a house/desk' script.txt
printed 'a source is newer than the program: it is built' "$rows.out" 1
rt_is 'exit 1'
run_command '../a house/desk' script.txt
printed 'once built, it is not built again' "$rows.out" 0
touch -d '2000-01-01' "$house/crates/desk/out/desk"
touch -d '1999-01-01' "$house/crates/desk/src/main.rt" "$house/crates/desk/src"
run_command '../a house/desk' script.txt
refused 'crates.txt counts as a source' 'build failed'
rt_is 'echo "main: not proved"; exit 1'
run_command '../a house/desk' script.txt
refused 'a build that fails: its last lines are shown' 'main: not proved'
rm "$house/crates/desk/out/desk"
rt_is 'exit 0'
run_command '../a house/desk' script.txt
refused 'a build that leaves no program' 'build failed'

# A path with all that ./desk needs but rt
rm "$kit/rt"
for tool in bash cat date dirname find mkdir readlink tail touch; do
    ln -s "$(command -v "$tool")" "$kit/$tool"
done
timeout=$(command -v timeout)
(PATH=$kit && "$timeout" 10 '../a house/desk' script.txt) >"$room/got" 2>"$room/said"
status=$?
refused 'rt is not on the path' 'not on the path'
cd - >/dev/null || exit 1
