# What ./fwparts and ./traffic share: builds a proved program of crates/, where there is none that is up to date, and runs
# it. The program ends with status 0 whatever it found: the script that reads this file takes its own from the last line.
# That script sets `name`, the program's crate; `STACK_KIB`, the stack that it needs; `void`, what its output is worth
# once it died; and calls usage_first, enough_stack, up_to_date || build, and run_program with its words.
# shellcheck shell=bash

fail() { printf '%s: %s\n' "$name" "$*" >&2; exit 2; }

# Help where that is all that is asked, and wrong usage where nothing is, as the program says it, which need not be built
# for that. Among files --help is wrong usage, so that no file passes unseen.
usage_first() { # WORDS..
    if [ $# -eq 1 ] && [ "$1" = --help ]; then
        usage
        exit 0
    fi
    if [ $# -eq 0 ]; then
        usage >&2
        echo "$name: wrong usage"
        exit 2
    fi
}

enough_stack() {
    local stack
    stack=$(ulimit -S -s)
    if [ "$stack" != unlimited ] && [ "$stack" -lt "$STACK_KIB" ] && ! ulimit -S -s "$STACK_KIB" 2>/dev/null; then
        fail "the stack is too small: $stack KiB, the program needs $STACK_KIB, and the hard limit is $(ulimit -H -s)." \
            "Start it from a shell that may have more ('ulimit -s $STACK_KIB', where it is refused as root)."
    fi
}

root=$(dirname "$(readlink -f "${BASH_SOURCE[0]}")")
program=$root/crates/$name/out/$name
began=$root/target/$name.began # is there while a build is not done: since when

# The crates that one stands on, and itself. The kit's libraries have no line in crates.txt.
declare -A line_of=()
crates=''
stands_on() { # CRATE
    local crate
    case "$crates " in *" $1 "*) return ;; esac
    [ -n "${line_of[$1]+listed}" ] || return
    crates+=" $1"
    for crate in ${line_of[$1]}; do stands_on "$crate"; done
}
while IFS=: read -r crate on || [ -n "$crate" ]; do
    crate=${crate%%#*}
    crate=${crate//[[:space:]]/}
    [ -z "$crate" ] || line_of[$crate]=${on%%#*}
done <"$root/crates.txt"
stands_on "$name"

# Whether the program is newer than all that it is built from. A folder is newer where a file of it went. What rt made of
# a crate is in its folder out/.
up_to_date() {
    local crate part file
    [ -x "$program" ] && [ ! -e "$began" ] && [ "$program" -nt "$root/crates.txt" ] || return
    shopt -s globstar nullglob
    for crate in $crates; do
        [ "$program" -nt "$root/crates/$crate" ] || return
        for part in "$root/crates/$crate"/*; do
            [ "${part##*/}" != out ] || continue
            for file in "$part" "$part"/**; do
                [ "$program" -nt "$file" ] || return
            done
        done
    done
}

checked() {
    local crate
    cd "$root" && mkdir -p target || return
    for crate in $crates; do mkdir -p "crates/$crate/out" || return; done # made later it would make the crate newer
    sleep 0.02 # and so would one made in the same tick
    : >"$began" || return
    # rt has no word for building a program without running it.
    (cd "crates/$name" && rt run -- --help) >"target/$name.log" 2>&1 || return
    # What rt found unchanged it leaves as old as it was.
    touch -r "$began" "$program" && rm -f "$began"
}

build() {
    command -v rt >/dev/null || fail "the program is not built, or is older than what it is built from," \
        "and there is no 'rt' on the PATH to build it, the command of the Rattle kit."
    echo "$name: building the program, a minute or two (log: target/$name.log)" >&2
    if ! (checked); then
        tail -n 20 "$root/target/$name.log" >&2
        fail "the program could not be built. Above is the end of target/$name.log."
    fi
}

# The program's library opens files by names in UTF-8 alone. Any word that is not ASCII has a link by its number, which the
# program takes where the word is no text.
link_files() { # WORDS..
    local LC_ALL=C word number=0
    for word; do
        number=$((number + 1))
        [[ $word == *[$'\x80'-$'\xff']* ]] || continue
        case $word in /*) ;; *) word=$PWD/$word ;; esac
        ln -s -- "$word" "$kept/$number" 2>/dev/null # what cannot be linked, it says that it cannot read
    done
}

# Runs the program, and leaves its last line in `last`. The output is passed on as it comes, also where nobody reads it to
# its end (-p); only its last line is kept, however long it is.
run_program() { # WORDS..
    local ends tail more=''
    kept=$(mktemp -d) && mkfifo "$kept/output" || fail "no temporary file could be made."
    trap 'rm -rf "$kept"' EXIT
    link_files "$@"
    tail -n 1 <"$kept/output" >"$kept/last" &
    tail=$!
    FILE_LINKS=$kept "$program" "$@" | tee -p "$kept/output"
    ends=("${PIPESTATUS[@]}")
    wait "$tail"
    last=$(tr -d '\0' <"$kept/last")
    if [ "${ends[0]}" -eq 139 ]; then
        more=" Its stack has at most $(ulimit -S -s) KiB; 'ulimit -s $((4 * STACK_KIB))' before it gives it more."
    fi
    if [ "${ends[0]}" -gt 128 ]; then
        fail "the program died from signal $((ends[0] - 128)) ($(kill -l "${ends[0]}")): $void.$more"
    elif [ "${ends[0]}" -ne 0 ]; then
        fail "the program ended with status ${ends[0]}: $void."
    elif [ "${ends[1]}" -ne 0 ]; then
        fail "what the program says could not be written."
    fi
}
