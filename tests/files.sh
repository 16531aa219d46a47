#!/usr/bin/env bash
# Runs the program on files: what OUTPUT may be, what it is before and after, and what stands beside it. Judges by bytes, modes and
# the names in the folder. The last line is `N passed, N failed`.
#
# Usage: files.sh [PROGRAM]. The program is teddertempo; where neither an argument nor the variable TEDDERTEMPO names one, it is
# proved and built from crates/teddertempo. As root it runs more: a full device, which is mounted for it, other owners, and a folder
# where another user may write nothing. Where these can't be had, a line says so, and that part is left out.
set -euo pipefail
export LC_ALL=C
program=${1:-${TEDDERTEMPO:-}}
if [ -n "$program" ]; then program=$(realpath "$program"); fi
cd "$(dirname "$0")/.."

work=$(mktemp -d)
mounted=
leave() {
    cd /
    if [ -n "$mounted" ]; then umount "$mounted"; fi
    rm -rf "$work"
}
trap leave EXIT

if [ -z "$program" ]; then
    program=$PWD/crates/teddertempo/out/teddertempo
    if ! (cd crates/teddertempo && rt run -- --seed 1 < ../../tests/modules/numbers.wasm) > /dev/null 2> "$work/log"; then
        cat "$work/log"
        exit 1
    fi
fi

# Another user has to reach the program, and the folders of the cases.
chmod 755 "$work"
cp "$program" "$work/teddertempo"
chmod 755 "$work/teddertempo"
program=$work/teddertempo
cp tests/modules/numbers.wasm "$work/module.wasm"
cp tests/modules/hashes.wasm "$work/large.wasm"
echo "something else" > "$work/other"
"$program" --seed 7 < "$work/module.wasm" > "$work/wanted.wasm"
umask 022

passed=0
failed=0

# Runs a case in a folder of its own, which has the module as in.wasm, and counts what it says.
judge() {
    local what=$1
    shift
    rm -rf "$work/case"
    mkdir "$work/case"
    cd "$work/case"
    cp "$work/module.wasm" in.wasm
    if "$@" > "$work/log" 2>&1; then
        passed=$((passed + 1))
    else
        failed=$((failed + 1))
        echo "$what failed:"
        tail -n 30 "$work/log"
        ls -lA
    fi
    cd "$work"
}

# Runs a command, which ends with the status; its message has these words in it, or there is none where there are no words.
ends() {
    local wanted=$1 words=$2 status=0
    shift 2
    "$@" > "$work/printed" 2> "$work/message" || status=$?
    said "$wanted" "$words" "$status"
}

# Whether a command that has ended with a status did so, with its message in the file for that.
said() {
    cat "$work/message"
    echo "status $3"
    [ "$3" -eq "$1" ] || return 1
    if [ -n "$2" ]; then grep -qF -- "$2" "$work/message"; else [ ! -s "$work/message" ]; fi
}

rewrite() { timeout 20 "$program" --seed 7 "$@"; }
is_new() { cmp "$1" "$work/wanted.wasm"; }
is_module() { cmp "$1" "$work/module.wasm"; }
is_other() { cmp "$1" "$work/other"; }
has_mode() { [ "$(stat -c %a "$2")" = "$1" ]; }

# Whether a folder has these names in it and no others.
has_names() {
    local folder=$1
    shift
    diff <(ls -A "$folder") <(printf '%s\n' "$@" | sort)
}

is_empty() { [ -z "$(ls -A "$1")" ]; }

input_has_name() {
    mv in.wasm "$1" && ends 0 "" rewrite "$1" -o out && is_new out && is_module "$1" && has_names . out "$1"
}

# An input with one name, and another file beside OUTPUT with the other one: neither changes.
both_stay() {
    mv in.wasm "$1" && cp "$work/other" "$2" && ends 0 "" rewrite "$1" -o out && is_new out || return 1
    is_module "$1" && is_other "$2" && has_names . "$1" out "$2"
}

input_is_output() { ends 0 "" rewrite in.wasm -o in.wasm && is_new in.wasm && has_names . in.wasm; }

others_stay() {
    cp "$work/other" out.new && cp "$work/other" out.new-0 && cp "$work/other" out.new-1 || return 1
    ends 0 "" rewrite in.wasm -o out && is_new out || return 1
    is_other out.new && is_other out.new-0 && is_other out.new-1 && has_names . in.wasm out out.new out.new-0 out.new-1
}

names_are_taken() {
    cp "$work/other" out && touch out.new-{0..999} || return 1
    ends 1 "out: can't be written: there are 1000 files beside it" rewrite in.wasm -o out || return 1
    is_other out && has_names . in.wasm out out.new-{0..999}
}

# A run that begins and waits for its input, once the file beside its OUTPUT is there.
begin() {
    mkfifo held && exec 5<> held || return 1
    timeout 20 "$program" --seed 7 held -o "$1" > "$work/printed" 2> "$work/message" 5>&- &
    running=$!
    for _ in {1..100}; do
        if [ -e "$1.new-0" ]; then return 0; fi
        sleep 0.1
    done
    return 1
}

# Its end, once it has its input: as `said` says.
finish() {
    local status=0
    cat "$work/module.wasm" >&5 && exec 5>&- || return 1
    wait "$running" || status=$?
    said "$1" "$2" "$status"
}

two_at_once() {
    begin out && rewrite in.wasm -o out && is_new out && rm out && finish 0 "" && is_new out && has_names . held in.wasm out
}

is_hidden_meanwhile() {
    cp "$work/other" out && chmod 644 out && begin out && has_mode 600 out.new-0 && is_other out || return 1
    finish 0 "" && is_new out && has_mode 644 out && has_names . held in.wasm out
}

becomes_a_folder() {
    begin out && mkdir out && finish 1 "out: can't be replaced: Is a directory" && has_names . held in.wasm out && is_empty out
}

folder_is_removed() {
    mkdir folder && begin folder/out && rm -r folder || return 1
    finish 1 "folder/out: can't be replaced: No such file or directory" && has_names . held in.wasm
}

is_a_folder() { mkdir out && ends 1 "out: can't be written: it is a folder" rewrite in.wasm -o out && has_names . in.wasm out; }

a_link() {
    mkdir folder && cp "$work/other" folder/out && chmod 640 folder/out || return 1
    ln -s folder/out link && ln -s "$PWD/link" other || return 1
    ends 0 "" rewrite in.wasm -o other && is_new folder/out && has_mode 640 folder/out || return 1
    [ "$(readlink link)" = folder/out ] && [ "$(readlink other)" = "$PWD/link" ] || return 1
    has_names . folder in.wasm link other && has_names folder out
}

a_link_to_nothing() {
    mkdir folder && ln -s folder/out link && ends 0 "" rewrite in.wasm -o link && is_new folder/out || return 1
    [ -L link ] && has_names . folder in.wasm link && has_names folder out
}

a_loop_of_links() {
    ln -s one two && ln -s two one || return 1
    ends 1 "one: can't be written: a loop of links" rewrite in.wasm -o one && has_names . in.wasm one two
}

a_link_to_standard_output() {
    ln -s /dev/stdout link && ends 0 "" rewrite in.wasm -o link && is_new "$work/printed" && has_names . in.wasm link
}

standard_output() {
    cp "$work/other" printed && rewrite in.wasm -o "$1" >> printed || return 1
    cat "$work/other" "$work/wanted.wasm" | cmp printed || return 1
    rewrite in.wasm -o "$1" > printed && is_new printed && rewrite in.wasm -o "$1" | cmp - "$work/wanted.wasm" || return 1
    has_names . in.wasm printed
}

open_file() {
    cp "$work/other" printed && rewrite in.wasm -o /dev/fd/3 3>> printed || return 1
    cat "$work/other" "$work/wanted.wasm" | cmp printed && has_names . in.wasm printed
}

a_pipe() {
    mkfifo out && { timeout 20 cat out > came & } && ends 0 "" rewrite in.wasm -o out && wait $! && is_new came || return 1
    [ -p out ] && has_names . came in.wasm out
}

no_space() {
    ends 1 "/dev/full: can't be written: No space left on device" rewrite in.wasm -o /dev/full || return 1
    ends 1 "/dev/full: can't be written: No space left on device" timeout 20 "$program" --list in.wasm -o /dev/full || return 1
    local status=0
    rewrite in.wasm > /dev/full 2> "$work/message" || status=$?
    said 1 "standard output: can't be written: No space left on device" "$status"
}

mode_stays() {
    cp "$work/other" out && chmod "$1" out && cp "$work/other" out.new && chmod 777 out.new || return 1
    ends 0 "" rewrite in.wasm -o out && is_new out && has_mode "$1" out
}

mode_of_mask() { (umask 027 && rewrite in.wasm -o out) && is_new out && has_mode 640 out; }

is_read_only() {
    cp "$work/other" out && chmod "$1" out && ln -s out link || return 1
    ends 1 "out: can't be written: it is read-only" rewrite in.wasm -o out || return 1
    ends 1 "link: can't be written: it is read-only" rewrite in.wasm -o link || return 1
    is_other out && has_mode "$1" out && has_names . in.wasm link out
}

run_fails() {
    cp "$work/other" out && ends 1 "BadMagic" rewrite "$work/other" -o out && is_other out && has_names . in.wasm out
}

not_utf8() {
    ends 64 "teddertempo: an argument isn't UTF-8" rewrite in.wasm -o $'out\xff' && has_names . in.wasm || return 1
    ends 64 "teddertempo: an argument isn't UTF-8" rewrite $'\xc3' && [ "$(wc -l < "$work/message")" -eq 1 ]
}

# A list whose reader goes away, and a module whose reader has gone.
reader_goes() {
    local statuses
    timeout 20 "$program" "$1" "$work/large.wasm" 2> "$work/message" | head -1 > line
    statuses="${PIPESTATUS[*]}"
    said 0 "" "${statuses% *}" && [ "$(wc -l < line)" -eq 1 ]
}

reader_has_gone() {
    local statuses
    { sleep 1 && rewrite in.wasm 2> "$work/message"; } | true
    statuses="${PIPESTATUS[*]}"
    said 1 "standard output: can't be written: Broken pipe" "${statuses% *}"
}

# Where standard output and error are closed, nothing that is meant for them goes to another file.
are_closed() {
    "$program" --seed 7 in.wasm -o out <&- >&- 2>&- && is_new out && rm out && has_names . in.wasm || return 1
    local status=0
    "$program" --seed 7 --stats in.wasm -o out <&- >&- 2>&- || status=$?
    [ "$status" -eq 1 ] && has_names . in.wasm || return 1
    status=0
    "$program" --seed 7 in.wasm 2> "$work/message" >&- || status=$?
    said 1 "standard output: can't be written: Bad file descriptor" "$status" && is_module in.wasm
}

# An OUTPUT with no name, and names of folders.
no_name() {
    ends 1 "can't be written: No such file or directory" rewrite in.wasm -o "" || return 1
    ends 1 "new/: can't be written: No such file or directory" rewrite in.wasm -o new/ && has_names . in.wasm
}

# A file size limit is a failed write, if the signal for it is ignored.
size_limit() {
    cp "$work/other" out || return 1
    (trap '' XFSZ && ulimit -f 1 && ends 1 "out: can't be written: File too large" rewrite in.wasm -o out) || return 1
    is_other out && has_names . in.wasm out
}

# A command line on a terminal, whose input ends at once. What it writes there is in the file for messages.
on_terminal() { timeout "$1" script -qec "$2" /dev/null < /dev/null > "$work/message" || true; }

says_that_it_reads() {
    on_terminal 20 "'$program' > out"
    grep -q "reading a module from standard input; teddertempo --help" "$work/message" || return 1
    on_terminal 20 "'$program' --seed 7 in.wasm > out" && is_new out && [ ! -s "$work/message" ]
}

# A run without an end, for three seconds.
shows_progress() {
    local task=$1 unit=$2
    on_terminal 3 "'$program' $task --count 100000000 '$work/large.wasm' -o out"
    cat "$work/message"
    grep -q "^teddertempo: [1-9][0-9]* $unit in [1-9] s" "$work/message" || return 1
    on_terminal 3 "'$program' $task --quiet --count 100000000 '$work/large.wasm' -o out" && [ ! -s "$work/message" ]
}

judge "an input with the name OUTPUT.new" input_has_name out.new
judge "an input with the name OUTPUT.new-0" input_has_name out.new-0
judge "an input beside OUTPUT.new" both_stay in out.new
judge "an input beside OUTPUT.new-0" both_stay in out.new-0
judge "OUTPUT.new beside OUTPUT.new-0" both_stay out.new out.new-0
judge "OUTPUT.new-0 beside OUTPUT.new-1" both_stay out.new-0 out.new-1
judge "OUTPUT.new-1 beside OUTPUT.new" both_stay out.new-1 out.new
judge "an input that is OUTPUT" input_is_output
judge "unrelated files beside OUTPUT" others_stay
judge "all names beside OUTPUT taken" names_are_taken
judge "two runs at once" two_at_once
judge "the rights of a file that is being written" is_hidden_meanwhile
judge "an OUTPUT that becomes a folder" becomes_a_folder
judge "an OUTPUT whose folder is removed" folder_is_removed
judge "an OUTPUT that is a folder" is_a_folder
judge "a link" a_link
judge "a link to nothing" a_link_to_nothing
judge "a loop of links" a_loop_of_links
judge "a link to standard output" a_link_to_standard_output
for name in - /dev/stdout /dev/fd/1 /proc/self/fd/1; do judge "$name" standard_output "$name"; done
judge "an open file" open_file
judge "a pipe" a_pipe
judge "no space on a device" no_space
for mode in 600 640 755; do judge "a file of the mode $mode" mode_stays "$mode"; done
judge "a new file under a mask" mode_of_mask
for mode in 444 500; do judge "a read-only file of the mode $mode" is_read_only "$mode"; done
judge "a run that fails" run_fails
judge "closed standard output and error" are_closed
judge "no name" no_name
judge "an argument that isn't UTF-8" not_utf8
for task in --list --blocks; do judge "$task whose reader goes" reader_goes "$task"; done
judge "a module whose reader has gone" reader_has_gone
judge "a file size limit" size_limit
if command -v script > /dev/null; then
    judge "no arguments on a terminal" says_that_it_reads
    judge "progress of rewrites" shows_progress "" rewrites
    judge "progress of changes" shows_progress --change changes
else
    echo "terminals aren't tested: that needs script of bsdutils"
fi

# Nothing is made in a folder where the user, or the other user whose command stands in front, may write nothing.
no_permission() {
    mkdir folder && cp "$work/other" folder/out && chmod 666 folder/out && chmod 555 folder || return 1
    ends 1 "Permission denied" "$@" "$program" --seed 7 in.wasm -o folder/out || return 1
    ends 1 "Permission denied" "$@" "$program" --seed 7 in.wasm -o folder/new || return 1
    is_other folder/out && has_names folder out && has_names . folder in.wasm && chmod 755 folder
}

# A file of another user, in a folder where everyone may make files and replace only their own.
not_replaced() {
    mkdir folder && chmod 1777 folder && cp "$work/other" folder/out && chmod 666 folder/out || return 1
    ends 1 "folder/out: can't be replaced: Operation not permitted" "$@" "$program" --seed 7 in.wasm -o folder/out || return 1
    is_other folder/out && has_names folder out
}

# A file of another group, which the other user isn't in: that group's rights aren't given to the user's own.
group_is_lost() {
    mkdir folder && chmod 777 folder && cp "$work/other" folder/out && chmod 664 folder/out || return 1
    ends 0 "" "$@" "$program" --seed 7 in.wasm -o folder/out && is_new folder/out && has_mode 644 folder/out
}

owner_stays() {
    cp "$work/other" out && chown 65534:65533 out && chmod 640 out && ends 0 "" rewrite in.wasm -o out && is_new out || return 1
    [ "$(stat -c %u:%g:%a out)" = 65534:65533:640 ]
}

# The device has room for two files of a page each.
is_full() {
    cp "$work/other" "$mounted/out" && cp "$work/other" "$mounted/more" || return 1
    ends 1 "$mounted/out: can't be written: No space left on device" rewrite in.wasm -o "$mounted/out" || return 1
    is_other "$mounted/out" && has_names "$mounted" more out
}

if [ "$(id -u)" -ne 0 ]; then
    judge "a folder without permission" no_permission
    echo "other owners and a full device aren't tested: that needs root"
else
    other_user=(setpriv --reuid=65534 --regid=65534 --clear-groups)
    if "${other_user[@]}" true > /dev/null 2>&1; then
        judge "a folder without permission" no_permission "${other_user[@]}"
        judge "a file that may not be replaced" not_replaced "${other_user[@]}"
        judge "a group that can't be kept" group_is_lost "${other_user[@]}"
        judge "an owner and a group" owner_stays
    else
        echo "other owners aren't tested: that needs setpriv"
    fi
    mkdir "$work/full"
    if mount -t tmpfs -o size=8k tmpfs "$work/full" > /dev/null 2>&1; then
        mounted=$work/full
        judge "a full device" is_full
    else
        echo "a full device isn't tested: none can be mounted"
    fi
fi

echo "$passed passed, $failed failed"
[ "$failed" -eq 0 ]
