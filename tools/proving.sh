# Read by ./draw and ./lezantsiro: proving with rt, one run at a time, and how far it is. They set $script, their own
# name, $root, $out, $work, a folder of theirs, and $goals, the crates that are proved; and say and fail. When a signal
# ends them they call stop_proving.
# shellcheck shell=sh disable=SC2154
ticker=
proving=
# The crates that have a built library before rt begins, each behind a space.
before=

# Waits until no other run is at work: rt and the pictures share folders. The kernel frees descriptor 9 with the last
# process that has it, so that a killed run leaves no lock behind, and one whose rt is still at work does.
lock() {
    command -v flock > /dev/null || fail "flock is not on the PATH. Install util-linux, then run $script again."
    if ! mkdir -p "$root/target" "$out" || ! touch "$out/.lock"; then
        fail "cannot write to $root"
    fi
    exec 9> "$out/.lock"
    flock -n 9 && return
    say "another run is at work: waiting for its end"
    flock 9 || fail "cannot lock $out/.lock"
}

# Ends the line that changes, with what is given.
quiet() {
    [ -n "$ticker" ] || return 0
    kill "$ticker" 2> /dev/null
    wait "$ticker" 2> /dev/null
    ticker=
    # shellcheck disable=SC2059
    printf "$1"
}

# Ends rt if it is at work.
stop_proving() {
    [ -z "$proving" ] || ! { read -r rt < "$work/rt" && kill "$rt"; } 2> /dev/null
    proving=
}

# How far rt is, by what it has told of each crate: sets $ended, $total and $name, the crate that it is at. It proves one
# after the other, and says nothing of those that were built before and have not changed, nor of those that it takes from
# another copy: what a crate builds on is proved when it comes to that one. crates.txt has each crate behind those that it
# builds on.
look() {
    state=$(awk -F '[: ]+' -v goals="$goals" -v before="$before" '
        NR > FNR {
            if (/^rt: chose --jobs [0-9]+ for [a-z0-9_]+$/) { at = $6; delete told[at] }
            if (/^logic=proved / && at != "") { told[at] = 1; at = "" }
            next
        }
        /^[a-z]/ {
            crate[++n] = $1
            size[$1] = 0
            for (i = 2; i <= NF; i++) if ($i in size) below[$1, ++size[$1]] = $i
        }
        END {
            for (i = n; i > 0; i--) {
                c = crate[i]
                if (c in told || c == at) for (j = size[c]; j > 0; j--) told[below[c, j]] = 1
            }
            n_goals = split(goals, goal, " ")
            for (i = 1; i <= n_goals; i++) needed[goal[i]] = 1
            n_built = split(before, built, " ")
            for (i = 1; i <= n_built; i++) told[built[i]] = 1
            for (i = n; i > 0; i--) {
                c = crate[i]
                if (c in needed) for (j = size[c]; j > 0; j--) needed[below[c, j]] = 1
            }
            name = at
            for (i = 1; i <= n; i++) {
                c = crate[i]
                if (!(c in needed)) continue
                total++
                if (c in told && c != at) ended++
                else if (name == "") name = c
            }
            print ended + 0, total, name
        }' "$root/crates.txt" "$out/build.log")
    ended=${state%% *}
    state=${state#* }
    total=${state%% *}
    name=${state#* }
    seconds=$(($(date +%s) - began))
}

# On a terminal: one line that changes every second.
tick() {
    while sleep 1 && kill -0 $$ 2> /dev/null; do
        look
        [ -z "$name" ] ||
            printf '\r\033[Kproving %s, %s of %s (%s s so far)' "$name" "$((ended + 1))" "$total" "$seconds"
    done
}

# Keeps what rt says; if the output is no terminal, a line for each crate that was proved.
follow() {
    at=
    while IFS= read -r line; do
        printf '%s\n' "$line" >> "$out/build.log"
        [ ! -t 1 ] || continue
        case $line in
            "rt: chose --jobs "*" for "*) at=${line##* } ;;
            "logic=proved "*)
                [ -n "$at" ] || continue
                look
                printf 'proved %s, %s of %s (%s s so far)%s\n' \
                    "$at" "$ended" "$total" "$seconds" "${name:+, now proving $name}"
                at=
                ;;
        esac
    done
}

# rt_in GOAL COMMAND: has rt prove a crate and build it. rt runs a program that it has built: on the crate's own input, and
# what it writes is for nobody.
rt_in() {
    cd "$root/crates/$1" || exit
    if [ "$2" = run ]; then
        input=stdin
        [ -e stdin ] || input=/dev/null
        exec rt run < "$input" 2>&1 > /dev/null
    fi
    exec rt "$2" 2>&1
}

# place_of GOAL: sets $made, what rt builds of a crate, and $placed, where all look for it: rt ci empties each folder out.
place_of() {
    made=$root/crates/$1/out/$1
    placed=$root/target/bin/$1
    if [ ! -e "$root/crates/$1/src/main.rt" ]; then
        made=$root/crates/$1/out/lib$1.a
        placed=$root/target/staticlib/lib$1.a
    fi
}

# Whether a source has changed since this file was made.
is_changed_since() {
    [ -n "$(find -L "$root/crates" "$root/crates.txt" -name out -prune -o -type f -newer "$1" -print | head -n 1)" ]
}

# Whether a crate's goal is in its place, and no source has changed since. So it is behind .ci/run, though rt would prove all
# crates again: it takes nothing that rt ci has proved.
is_placed() {
    place_of "$1"
    [ -e "$placed" ] && ! is_changed_since "$placed"
}

place() {
    place_of "$1"
    # a copy that is cut off is none
    mkdir -p "${placed%/*}" && cp "$made" "$work/placed" || return
    # what has changed while rt was at work is in the next one
    ! is_changed_since "$work/begun" || touch -r "$work/begun" "$work/placed"
    mv "$work/placed" "$placed"
}

# prove WHAT BUILT COMMAND: has rt prove $goals and build WHAT, by its command run or lib; what is proved already is not
# proved again. BUILT is not empty if it was built before.
prove() {
    command -v rt > /dev/null ||
        fail "rt is not on the PATH. Install the Rattle kit and put its folder bin on the PATH, then run $script again."
    : > "$out/build.log"
    due=
    for goal in $goals; do
        is_placed "$goal" || due="$due $goal"
    done
    [ -n "$due" ] || return 0
    goals=$due
    began=$(date +%s)
    before=
    for kept in "$root"/crates/*/out/rlib/stamp; do
        crate=${kept#"$root/crates/"}
        [ ! -e "$kept" ] || before="$before ${crate%%/*}"
    done
    if [ -z "$2" ]; then
        look
        printf 'Proving and building %s, some minutes the first time: %s crates, now %s\n' "$1" "$total" "$name"
    fi
    if [ -t 1 ]; then
        tick 9>&- &
        ticker=$!
    fi
    # In the background: a trap waits for the end of a command in the foreground, but not for this.
    proving=yes
    {
        for goal in $goals; do
            : > "$work/begun"
            rt_in "$goal" "$3" &
            echo $! > "$work/rt"
            wait $! && place "$goal"
            status=$?
            # whoever was ended has removed the folder
            { echo "$status" > "$work/status"; } 2> /dev/null
            [ "$status" = 0 ] || break
        done
    } | follow &
    wait $!
    proving=
    quiet '\r\033[K'
    [ "$(cat "$work/status")" = 0 ] ||
        fail "$1 was not built: see out/build.log, whose last line is: $(tail -n 1 "$out/build.log")"
}
