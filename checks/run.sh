#!/bin/sh
# Checks the program from outside: its statuses, what it prints on which stream, and when. One line for each check.
#   sh checks/run.sh        needs python3, sqlite3 and the program as `rt run` leaves it (README.md)
. "$(dirname "$0")/begin.sh"
program=crates/rb_run/out/rb_run
[ -x "$program" ] || fail "no program at $program: see README.md" 2
out=$work/out err=$work/err why=''

# run INPUT WORDS..: runs the program to its end, and keeps what it printed and its status, which is 124 where it hangs.
run() {
    input=$1
    shift
    timeout 60 "$program" "$@" <"$input" >"$out" 2>"$err"
    status=$?
}

# need WHAT COMMAND..: where the command fails, that is what is wrong.
need() {
    what=$1
    shift
    "$@" || why="$why${why:+, }$what"
}

need_status() { need "status $status" test "$status" -eq "$1"; }
need_nothing() { need "$1 isn't empty" test ! -s "$work/$1"; }
need_text() { need "out is '$(head -c 60 "$out")'" test "$(cat "$out")" = "$1"; }
need_line() { need "$1 is '$(head -c 200 "$work/$1")'" fits "$work/$1" "$2"; }

# fits FILE PATTERN: the file is one line of this pattern.
fits() {
    case $(cat "$1") in $2) test "$(wc -l <"$1")" -eq 1 ;; *) false ;; esac
}

# need_fault LINE PATTERN: standard error is this line, and then the system's reason, which fits the pattern.
need_fault() {
    need "err is '$(head -c 200 "$err")'" test "$(head -n 1 "$err")" = "$1"
    tail -n +2 "$err" >"$work/reason"
    need_line reason "$2"
}

# end NAME: prints the check's line.
end() {
    judged "$1" "$why"
    why=''
}

run examples/first.script script
need_status 0
need 'other answers' cmp -s "$out" examples/first.answers
need_nothing err
end 'first.script'

# Cases: scripts with their answers, and with the options that they ask for.
python3 checks/packs.py unpack rb_cases "$work/data" || exit 2
for script in "$work/data"/*.script; do
    case=${script%.script}
    options=''
    [ ! -f "$case.args" ] || options=$(cat "$case.args")
    # each word of the options is one of the program's
    run "$script" script $options
    need 'other answers' cmp -s "$out" "$case.answers"
    if [ -f "$case.fault" ]; then
        need_status 3
        need "err is '$(head -c 200 "$err")'" test "$(cat "$err")" = "rb_run: $(cat "$case.fault")"
    else
        need_status 0
        need_nothing err
    fi
    end "case ${case##*/}"
done

# Listings: lines with the rows that they show, as SQL literals and as JSON.
for lines in "$work/data"/*.shows; do
    case=${lines%.shows}
    for form in sql json; do
        flag=''
        [ "$form" = sql ] || flag=--json
        # no flag is no word
        run "$lines" show $flag
        need 'other rows' cmp -s "$out" "$case.$form"
        if [ -f "$case.fault" ]; then
            need_status 1
            need "err is '$(head -c 200 "$err")'" test "$(cat "$err")" = "rb_run: $(cat "$case.fault")"
        else
            need_status 0
            need_nothing err
        fi
        end "listing ${case##*/}, $form"
    done
done

# The command line.

# refused NAME WORDS..: a command line that the program doesn't take
refused() {
    name=$1
    shift
    run /dev/null "$@"
    need_status 2
    need_nothing out
    need 'err is empty' test -s "$err"
    need "err is '$(head -n 1 "$err")'" test -z "$(grep 'out of memory' "$err")"
    end "$name"
}

run /dev/null
need 'no usage on standard error' grep -q Usage "$err"
refused 'no words'
refused 'an unknown option' --nonsense
refused 'an unknown option of script' script --nonsense
refused 'an unknown subcommand' nonsense
refused 'a word too many' script nonsense
refused 'a word that is no UTF-8' "$(printf '\377')"
run /dev/null "$(printf '\377')"
need_line err "rb_run: an argument isn't UTF-8"
end 'what is said of it'
refused 'an option twice' script --batch 1 --batch 2
refused 'an option without a number' script --batch
refused 'a number with a sign' script --window -1

# An option whose word is no number in its range is told before the input is read, which would fail here.
while read -r option word most; do
    run / script "--$option" "$word"
    need_status 2
    need_nothing out
    need_line err "rb_run: --$option takes a number from 1 to $most"
    end "--$option $word"
done <<END
batch 0 256
batch 257 256
window 65 64
timeout 1000000001 1000000000
capacity 16777217 16777216
intake 4097 4096
intake 07 4096
intake x 4096
batch 18446744073709551617 256
END

for words in --version -V 'script --version' 'script -V'; do
    # each word is one of the program's
    run /dev/null $words
    need_status 0
    need_line out 'rb_run?*'
    need_nothing err
    end "$words"
done

run /dev/null --help
need_status 0
need 'out is empty' test -s "$out"
need_nothing err
end '--help'

# help goes to a pipe that nobody reads
for words in --help --version 'script --help' 'script --version'; do
    { sleep 1; timeout 60 "$program" $words 2>"$err"; echo $? >"$work/status"; } | true
    status=$(cat "$work/status")
    need_status 0
    need_nothing err
    end "$words on a closed pipe"
done

run /dev/null script --help
need_status 0
need_nothing err
need "no word of '< FILE'" grep -q '< FILE' "$out"
need "no word of statuses" grep -qi status "$out"
for line in table publisher feed reset end send turn close subscribe take takeany accept crash ack nack nackopen expire \
    reconnect resume unsubscribe entry rows left; do
    need "no word of '$line'" grep -qw "$line" "$out"
done
for option in 'batch .* 1 to 256 .*16' 'window .* 1 to 64 .*4' 'timeout .* 1 to 1000000000 .*10' \
    'capacity .* 1 to 16777216 .*65536' 'intake .* 1 to 4096 .*64' numbers strict; do
    need "no line of '--$option'" grep -q -e "--$option" "$out"
done
need "no word of what 'reset' forgets" grep -q '^ *reset P .* fault$' "$out"
need "no word of what a fault leaves" grep -q '^fault until `reset P`' "$out"
need "no word of what a refused turn keeps" grep -q 'keeps the next changeset in hand' "$out"
end 'script --help'

# What refused and faulty lines leave, as `script --help` says.

# leaves NAME LINES ANSWERS: a script under `--capacity 1 --intake 1`
leaves() {
    printf '%b' "table 540201007400\npublisher\n$2" >"$work/lines"
    run "$work/lines" script --capacity 1 --intake 1
    need_status 0
    need_text "$(printf '%b' "ok\npublisher 0\n$3")"
    end "$1"
}

leaves 'a fault of feed stays until reset' 'feed 0 02\nfeed 0 54\nend 0\nreset 0\nend 0\n' \
    'fault 0 BadMarker\nfault 0 BadMarker\nfault 0 BadMarker\nok\nstaged\n'
leaves 'a refused end keeps the bytes' 'feed 0 5401017500\nend 0\nend 0\nreset 0\nend 0\n' \
    'ok\nrefused UnknownTable 0\nrefused UnknownTable 0\nok\nstaged\n'
leaves 'a faulty end keeps the bytes' 'feed 0 54\nend 0\nfeed 0 0201007400\nend 0\n' \
    'ok\nfault 1 Truncated\nok\nstaged\n'
leaves 'a refused turn keeps a changeset in hand' \
    'end 0\nsend 0\nturn\nend 0\nsend 0\nend 0\nsend 0\nturn\nleft\nsend 0\nleft\nturn\nleft\n' \
    'staged\nsent 1\nplaced 1\nstaged\nsent 2\nstaged\nrefused Full\nrefused SequenceFull\nleft 1\nsent 3\nleft 2\nrefused SequenceFull\nleft 2\n'

# A drive whose subscriber 0 keeps its rows in a database.

drive=examples/drives/eight-publishers file=$work/replica.db
options=$(cat $drive.args)
# the cursor of subscriber 0, and its rows: INDEX|FIELDS
awk '$1 == "subscriber" { n++; if (n == 1) print "cursor " $4 }
    n == 1 && $1 == "row" { table = $2; $1 = $2 = ""; gsub(/ /, ""); print table "|" $0 }' $drive.report | sort >"$work/kept"

# need_kept FILE: the database is whole, and has these
need_kept() {
    need "$1 isn't whole" test "$(sqlite3 -batch "$1" 'PRAGMA integrity_check')" = ok
    sqlite3 -batch "$1" "SELECT 'cursor ' || place FROM rb_mark" 'SELECT tab, lower(hex(body)) FROM rb_row' | sort >"$work/found"
    need "$1 has other rows or another mark" cmp -s "$work/kept" "$work/found"
}

# each word of the options is one of the program's
run $drive.drive drive $options --replica "$file"
need_status 0
need 'another report' cmp -s "$out" $drive.report
need_nothing err
# a log stays beside the file, which has all without it
cp "$file" "$work/alone.db"
need_kept "$work/alone.db"
end 'drive --replica with a new file'

# store_fault FILE: such a drive reports nothing
store_fault() {
    run $drive.drive drive $options --replica "$1"
    need_status 1
    need_nothing out
    need_line err 'rb_run: store fault'
}

store_fault "$file"
need_kept "$file"
end 'drive --replica with that file again'
: >"$work/empty.db"
run $drive.drive drive $options --replica "$work/empty.db"
need_status 0
need 'another report' cmp -s "$out" $drive.report
need_kept "$work/empty.db"
end 'drive --replica with an empty file'
store_fault "$work"
end 'drive --replica with a folder'
store_fault "$work/none/replica.db"
end 'drive --replica in a folder that is not there'
store_fault ''
end 'drive --replica with an empty word'

# bad_line FILE: a bad line is told first
echo nonsense >"$work/lines"
bad_line() {
    run "$work/lines" drive --replica "$1"
    need_status 1
    need_nothing out
    need_line err 'rb_run: line 1'
}

bad_line "$file"
need_kept "$file"
end 'drive --replica with that file again, and a bad line'
bad_line "$work"
end 'drive --replica with a folder, and a bad line'
refused 'drive --replica without a file' drive --replica

# Where reading or writing fails, or too much comes.

run / script
need_status 1
need_nothing out
need_fault 'rb_run: read fault' '?*'
end 'a folder as standard input'

timeout 60 "$program" script <examples/first.script >/dev/full 2>"$err"
status=$?
need_status 1
need_fault 'rb_run: write fault' 'No space left*'
end 'a full disk'

# the answer to a last line without its end is written last of all
printf publisher >"$work/unended"
timeout 60 "$program" script <"$work/unended" >/dev/full 2>"$err"
status=$?
need_status 1
need_fault 'rb_run: write fault' 'No space left*'
end 'a full disk for the last line alone'

timeout 60 "$program" script --strict <examples/first.script >/dev/full 2>"$err"
status=$?
need_status 1
need_fault 'rb_run: write fault' 'No space left*'
end 'a full disk for a strict script'

timeout 60 "$program" --help >/dev/full 2>"$err"
status=$?
need_status 1
need_fault 'rb_run: write fault' '?*'
end '--help on a full disk'

# ten million bytes, of two million lines
yes turn | head -c 10000000 >"$work/long"
{
    timeout 60 "$program" script <"$work/long" 2>"$err"
    echo $? >"$work/status"
} | head -c 1 >/dev/null
status=$(cat "$work/status")
need_status 1
need_fault 'rb_run: write fault' '?*'
end 'a closed pipe'

# a line and empty ones, which have no answer
{
    echo publisher
    head -c 16777206 /dev/zero | tr '\0' '\n'
} >"$work/script"
run "$work/script" script
need_status 0
need_text 'publisher 0'
need_nothing err
end 'a script of 16,777,216 bytes'

echo >>"$work/script"
run "$work/script" script
need_status 1
need_text 'publisher 0'
need_line err 'rb_run: script too long'
end 'a script of 16,777,217 bytes'

# Answers come while the input stays open.

# start SECONDS: starts the program on a fifo, which descriptor 3 keeps open. It is killed after so many seconds.
start() {
    rm -f "$work/in"
    mkfifo "$work/in"
    timeout -s KILL "$1" "$program" script <"$work/in" >"$out" 2>"$err" &
    process=$!
    exec 3>"$work/in"
}

# over: closes the input, and waits for the program's end.
over() {
    exec 3>&-
    wait $process 2>"$work/killed"
    status=$?
}

# write TEXT: in a shell of its own, which dies alone where nobody reads any more
write() { (printf '%b' "$1" >&3); }

# soon TEXT: this is the output within five seconds.
soon() {
    tries=50
    until test "$(cat "$out")" = "$1"; do
        tries=$((tries - 1))
        test $tries -gt 0 || return 1
        sleep 0.1
    done
}

start 60
write 'publisher\n'
need 'no answer while the input is open' soon 'publisher 0'
write 'tur'
sleep 1
need_text 'publisher 0'
write 'n\n'
need 'no answer to a line that came in two parts' soon "publisher 0
idle"
over
need_status 0
need_nothing err
end 'answers before the next read'

start 2
write 'publisher\n'
sleep 3
over
need_status 137
need_text 'publisher 0'
end 'an answered line, and then a kill'

# Speed.

now() { echo $(($(date +%s%N) / 1000000)); }

begun=$(now)
run "$work/long" script
took=$(($(now) - begun))
need_status 0
need "only $(wc -l <"$out") answers" test "$(wc -l <"$out")" -eq 2000000
need 'too slow' test $took -lt 10000
end "10 MB of lines in less than 10 s ($took ms)"

none_failed checks
