#!/usr/bin/env bash
# Proves every crate, and builds the program. Under its three names it lies in out/programs then.
#
#   bash tests/proofs.sh            proves what has changed since the last run
#   bash tests/proofs.sh --anew     proves everything
#   bash tests/proofs.sh --kept     proves nothing: fails where an earlier run has not proved all of this
#
# Some toolchains keep what `rt ci` proved, crate by crate. With one that does not, a run whose
# proofs all passed leaves a note in the folder .git/gate: which files it proved, with which
# toolchain, and which programs it built. A later run over the same files takes its word for them.
#
# In front of each verdict stand the seconds since the run began, and at the end the processor
# minutes of each crate. RT_JOBS says how many checks run at once.
set -uo pipefail
if [ $# -gt 0 ] && [ "$*" != --anew ] && [ "$*" != --kept ]; then
    echo "usage: bash tests/proofs.sh [--anew | --kept]" >&2
    exit 2
fi
cd "$(dirname "${BASH_SOURCE[0]}")/.." || exit
room=$(mktemp -d)
trap 'rm -rf "$room"' EXIT
gate=$(git rev-parse --absolute-git-dir 2> /dev/null || echo "$room")/gate
export GATE_ROOM=$room

# Prints how many checks may run at once: at most 4, at most one for each core, and at most one for
# each 5 GiB of memory.
jobs_that_fit() {
    local memory
    memory=$(awk '/^MemAvailable:/ { print int($2 / 1024 / 1024 / 5) }' /proc/meminfo)
    printf '%d\n' 4 "$(nproc)" "$((memory > 0 ? memory : 1))" | sort -n | head -n 1
}

# Prints the folder of the toolchain.
kit() {
    dirname "$(realpath "$(rt doc | awk '{ print $1; exit }')")"
}

# Prints the sum of everything on which the proofs depend: the toolchain, this script, and the files
# of the crates.
inputs() {
    local at
    at=$(kit)
    {
        rt version
        find crates -path 'crates/*/out' -prune -o -type f -print0 | sort -z | xargs -0 sha256sum
        sha256sum crates.txt HANDLES .ci/run tests/proofs.sh tests/large_pages.{c,sh}
        sha256sum "$at/KIT-ID" "$at/bin/rattle" "$at/bin/rt" "$at/bin/rtlib.py"
    } | sha256sum
}

# Puts the program that is built under its names into out/programs.
put_programs() {
    local name
    mkdir -p out/programs
    for name in logos logos_cli logos_show; do
        cp crates/logos_program/out/logos_program "out/programs/$name.part" && mv "out/programs/$name.part" "out/programs/$name" || return
    done
}

# Prints the sums of the programs that are built.
programs() {
    sha256sum out/programs/{logos,logos_cli,logos_show}
}

# Prints what an earlier run proved, if it proved just these files and its programs are still there.
proved_before() {
    [ -f "$gate/proved" ] || return 1
    [ "$(cat "$gate/inputs")" = "$(inputs)" ] && [ "$(cat "$gate/programs")" = "$(programs 2> /dev/null)" ] || return 1
    echo "proofs: nothing has changed since the run of $(date -r "$gate/proved" '+%Y-%m-%d %H:%M'), which proved all of this"
    cat "$gate/proved"
}

# Writes lines on, with the seconds since the run began in front of each verdict.
with_seconds() {
    local line
    while IFS= read -r line; do
        case $line in
            'rt: '*) printf '%5d s  %s\n' "$SECONDS" "$line" ;;
            *) printf '%s\n' "$line" ;;
        esac
    done
}

# Notes every fifteen seconds which checks of this run are under way, and how many seconds of
# processor time each has taken, until the run ends. The checks of another run on this machine lack
# the word GATE_ROOM of this one.
watch_checks() {
    local pid times words
    while command -v ps > /dev/null && [ -d "$room" ] && sleep 15; do
        while read -r pid times words; do
            ! grep -qzxF "GATE_ROOM=$room" "/proc/$pid/environ" 2> /dev/null || echo "$pid $times $words"
        done < <(ps -ww -eo pid=,times=,args= | awk '$3 ~ /\/rattle$/ && /--crate-name/ { for (i = 4; i < NF; i++) if ($i == "--crate-name") print $1, $2, $(i + 1), $4 }')
    done > "$room/checks"
}

# Prints the processor minutes of each crate that was seen while it was checked: as a library; and
# as a program, with its tests, or with a wrong body.
print_checks() {
    [ -s "$room/checks" ] || return 0
    printf '%-18s %8s %8s\n' 'processor minutes' library others
    awk '{ of = $1 " " $3 " " $4; if ($2 > most[of]) most[of] = $2 }
        END {
            for (of in most) { split(of, it, " "); spent[it[2], it[3] == "build"] += most[of]; seen[it[2]] = 1 }
            for (name in seen) printf "%-18s %8.1f %8.1f\n", name, spent[name, 1] / 60, spent[name, 0] / 60
        }' "$room/checks" | sort -k 2,2nr
}

if [ "$*" = --kept ]; then
    proved_before && exit 0
    echo 'proofs: no run here has proved all of this'
    echo '0 passed, 1 failed'
    exit 1
fi
RT_JOBS=${RT_JOBS:-$(jobs_that_fit)}
export RT_JOBS
echo "cores: $(nproc), checks at once: $RT_JOBS"
. tests/large_pages.sh
use_large_pages "$room"
words=()
if [[ $(rt help 2>&1) == *--anew* ]]; then
    words=("$@")
fi
if [ $# = 0 ] && proved_before; then
    exit 0
fi
rm -rf "$gate"
sum=$(inputs)
watch_checks &
watch=$!
status=0
rt ci "${words[@]}" | with_seconds | tee "$room/proofs" || status=1
{ kill "$watch"; wait "$watch"; } 2> /dev/null
print_checks
[ "$status" != 0 ] || put_programs || status=1
if [ "$status" = 0 ] && [ "$sum" = "$(inputs)" ]; then
    mkdir -p "$gate"
    echo "$sum" > "$gate/inputs"
    programs > "$gate/programs"
    tail -n 1 "$room/proofs" > "$gate/proved"
fi
tail -n 1 "$room/proofs"
exit "$status"
