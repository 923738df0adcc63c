#!/bin/sh
# Runs the programs of this repository; `./rb help` lists the words. A proved program is taken if
# no source is newer than it. Otherwise an unproved build is made, once, and it says so.
here=$(dirname "$(readlink -f "$0")")
print_help() {
    cat <<'END'
usage: ./rb WORD ..    Without FILE, the input is standard input.
  run [FILE]             runs a script, prints a report   ./rb run examples/first-path.script
  read [FILE]            prints the epochs of a log       ./rb read examples/first-path.binlog
  logs [FILE]            prints the log files in hex      ./rb logs examples/first-path.script
  logs --out DIR [FILE]  writes the log files below DIR   ./rb logs --out o examples/rotation.script
  build                  proves and builds the programs   ./rb build
  version                prints commit and builds         ./rb version
  help                   prints this text                 ./rb help
exit status: 0 done, 1 no program to run or DIR refused, 2 usage, 3 bad script, 4 read fault,
5 write fault, 6 disk fault, 7 no memory, 8 not empty, 9 bad log, from 128 on: ended by a signal
docs: README.md, docs/SCRIPT.md (scripts and reports), docs/LOG_FORMAT.md, examples/README.md
END
}
say() { printf 'rb: %s\n' "$*" >&2; }
fail() { say "$2"; exit "$1"; }
set_crate() { name=$1 crate=$here/crates/$1 out=$here/crates/$1/out && program=$out/$name; }
is_current() {
    [ -x "$1" ] && ! find "$here/crates.txt" "$here"/crates/*/[ps]* -newer "$1" | grep -q .
}

# Makes a folder that is removed when the subshell that calls this ends.
make_room() {
    room=$(mktemp -d "${TMPDIR:-/tmp}/rb-XXXXXX") || fail 1 "cannot make a temporary folder"
    trap 'rm -rf "$room"' EXIT && trap 'exit 143' HUP INT TERM
}
check_can_build() {
    command -v rt >/dev/null || fail 1 "not built, and no rt in PATH: see README.md, Prerequisites"
    { mkdir -p "$out" && [ -w "$out" ]; } 2>/dev/null || fail 1 "$out has to be a writable folder"
}

# `rt try` builds with checks and without proof, runs the program, and removes it. So it is called
# in a kit of links, whose linker keeps the program. `rt` finds its kit by its own real path.
build_unproved() (
    make_room
    kit=$(dirname "$(rt doc </dev/null)") to=$room/kit
    mkdir -p "$to/bin" "$to/toolchain/bin" && cp "$kit/bin/rt" "$kit/bin/rtlib.py" "$to/bin"
    printf '#!/bin/sh\n"%s" "$@" && cp program "%s"\n' "$kit/toolchain/bin/ld.lld" \
        "$room/program" >"$to/toolchain/bin/ld.lld" && chmod +x "$to/toolchain/bin/ld.lld"
    for it in "$kit"/* "$kit"/bin/* "$kit"/toolchain/* "$kit"/toolchain/bin/*; do
        [ -e "$to${it#"$kit"}" ] || ln -s "$it" "$to${it#"$kit"}"
    done
    cd "$crate" && "$to/bin/rt" try -- run </dev/null >"$out/try.log" 2>&1 &&
        cp "$room/program" "$program.$$" && mv "$program.$$" "$program"
)

# Opens the FILE $2, if any, and sets `program` to the program of the crate $1, proved if it can be.
choose() {
    file=$2
    [ -z "$file" ] || { [ -r "$file" ] && [ ! -d "$file" ]; } || fail 4 "cannot read $file"
    [ -z "$file" ] || exec <"$file"
    set_crate "$1"
    is_current "$program" && return
    program=$program-unproved
    is_current "$program" && say "this build is unproved; ./rb build proves it" && return
    check_can_build
    say "making an unproved build, which takes about a minute; ./rb build proves it"
    build_unproved || fail 1 "the build failed; $out/try.log says why"
}

# Proves and builds the crate $1. A library that is proved has a stamp.
prove() {
    set_crate "$1" && check_can_build
    (cd "$crate" && exec rt run -- run) </dev/null >"$out/build.log" 2>&1 &
    job=$! seconds=0
    trap 'kill "$job"; exit 143' HUP INT TERM
    while sleep 1 && kill -0 "$job" 2>/dev/null; do
        seconds=$((seconds + 1))
        [ $((seconds % 60)) -ne 0 ] || say "$name, $((seconds / 60)) min: $(find "$here/crates" \
            -path '*/rlib/stamp' | wc -l) of $(grep -c '^[a-z]' "$here/crates.txt") crates proved"
    done
    wait "$job" || fail 1 "$name is not proved; $out/build.log says why"
    touch "$program" && echo "$program"
}

print_version() {
    echo "sextantnut $(git -C "$here" describe --always --dirty 2>/dev/null || echo unknown)"
    echo "toolchain $(rt version 2>/dev/null || echo 'not in PATH')"
    for it in rb_cli rb_cli-unproved rb_logs rb_logs-unproved; do
        set_crate "${it%-*}"
        ! is_current "$out/$it" || echo "built $it"
    done
}

# Runs the program, and shows the refused line if the script is a file, which can be read again.
run_script() (
    make_room
    "$program" "$@" 2>"$room/told"; status=$?
    cat "$room/told" >&2
    line=$(sed -n 's/^bad script: line \([1-9][0-9]*\) .*/\1/p' "$room/told")
    if [ "$status" -eq 3 ] && [ -n "$line" ] && [ -f "$file" ]; then
        text=$(sed -n "${line}{p;q;}" "$file" | tr -d '\r' | LC_ALL=C tr -c '\t\n -~' '?')
        printf '%s:%s: %.200s\n' "$file" "$line" "$text" >&2
    fi
    exit "$status"
)

# Runs `read`, and notes what its last line means. The length of a pipe is known if it has no head.
read_log() (
    make_room
    size=$(if [ -f /dev/stdin ]; then wc -c </dev/stdin; fi)
    { "$program" read; echo $? >"$room/status"; } | LC_ALL=C awk -v size="$size" -v e=/dev/stderr '
        { print }
        sub(/^end rest=/, "") {
            if ($0 > 0) print "rb: " $0 " bytes follow the last complete epoch" >e
            if (size == "") size = NR == 2 && $0 > 0 ? $0 + 0 : 115
            if (size < 115) print "rb: the input is shorter than the head of a log, 115 bytes:" \
                " magic number and format description" >e
        }' || exit 5
    exit "$(cat "$room/status")"
)

# Writes the files of `logs` below $dir. No contract speaks of this, so it compares the lengths.
# awk makes a script of printf, as not every awk prints a byte 0.
write_logs() (
    make_room
    run_script >"$room/text" || exit
    LC_ALL=C awk '
        function put() { if (bytes != "") print "printf '\''" bytes "'\''"; bytes = "" }
        function end() { put(); if (path) print "[ $(wc -c <" path ") -eq " size " ] || exit" }
        BEGIN { for (i = 0; i < 256; i++) octal[sprintf("%02x", i)] = sprintf("\\%03o", i) }
        $1 == "file" {
            end(); size = substr($5, 8); path = $2 "/" ($3 > 0 ? substr($4, 6) : "index")
            print "mkdir -p " $2 " && exec >" path " || exit"; next
        }
        { for (i = 1; i < length($2); i += 2) bytes = bytes octal[substr($2, i, 2)] }
        length(bytes) > 4000 { put() }
        END { end() }' "$room/text" >"$room/write"
    (mkdir -p "$dir" && cd "$dir" && sh "$room/write") || fail 5 "the files in $dir are not whole"
)

word=${1-help} writer=run_script; [ $# -eq 0 ] || shift
if [ "$word $1" = "logs --out" ] && [ -n "$2" ]; then
    dir=$2 writer=write_logs && shift 2
    for it in "$dir/A" "$dir/B"; do [ ! -e "$it" ] || fail 1 "$it is there already"; done
fi
case $word:$#:$1 in
    run:0: | run:1:[!-]*) choose rb_cli "$@" && run_script run ;;
    read:0: | read:1:[!-]*) choose rb_cli "$@" && read_log ;;
    logs:0: | logs:1:[!-]*) choose rb_logs "$@" && "$writer" ;;
    build:0:) prove rb_cli && prove rb_logs ;;
    version:0:) print_version ;;
    help:0: | --help:0:) print_help ;;
    *) fail 2 "usage: not these words: $word $*; ./rb help lists the words" ;;
esac
