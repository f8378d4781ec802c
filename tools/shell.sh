# What the scripts in bash share; each sources it before it goes to another folder. It says where the tree is (top) and
# by which name the script speaks (self).
top=$(readlink -f "${BASH_SOURCE[0]}")
top=${top%/tools/shell.sh}
self=$(readlink -f "$0")
self=${self#"$top/"}

bench_main=$top/target/bin/bench_main
sheets_main=$top/target/bin/sheets_main
library=$top/target/staticlib/libembed.a

tell() {
    printf '%s: %s\n' "$self" "$*" >&2
}

stop() {
    tell "$*"
    exit 1
}

# The words or the machine are not such that anything could be done.
refuse() {
    tell "$*"
    exit 2
}

# What this machine cannot try is told, and the test command tells it again at its end.
skip() {
    printf '%s\n' "$*" | tee -a "${HAILSTOAT_SKIPPED:-/dev/null}"
}

# One build of the tree at a time; who waits may find built what it needs. All that a build starts holds the lock with it, so
# that nobody builds beside what is left of one that was killed. It is on a folder that rt itself locks nowhere.
take_turn() {
    exec 9<"$top/crates"
    flock -n 9 && return
    tell "another build is going on in this tree; waiting for its end"
    flock 9
}

end_turn() {
    exec 9>&-
}

# The sources by name and content, as a number. What rt leaves in out/ is none of them.
sum_sources() {
    (cd "$top" && find crates crates.txt -path 'crates/*/out' -prune -o -type f -print0 | LC_ALL=C sort -z | xargs -0 sha256sum | sha256sum)
}

# Copies what rt has built to where it stays. What runs meanwhile keeps what it is of.
keep() {
    mkdir -p "$(dirname "$2")" && cp "$1" "$2.new" && mv -f "$2.new" "$2"
}

# Sets what a build of the sources as they are now is recorded by.
begin_build() {
    started=$(date +%s.%N)
    sources=$(sum_sources)
}

# What was built has the time at which its build began, so that what changed meanwhile is newer. Beside it stands what it was
# proved with, by which it is known again, and the sum of its sources.
record_build() {
    local file=$1 rt=$2
    touch -d "@$started" "$file"
    { "$rt" version && sha256sum <"$file" && echo "$sources"; } >"$file.made"
}

# Sets made to these three; fails where the file is not the one that they were recorded for.
recall_build() {
    local file=$1
    [ -r "$file" ] && [ -r "$file.made" ] || return
    mapfile -t made <"$file.made"
    [ "${made[1]:-}" = "$(sha256sum <"$file")" ]
}

# Built, and from the sources as they are now: older than the file or, in a tree that was copied, of the recorded sum. The
# folder of a crate is of the time at which rt last made its out/.
fresh() {
    local file=$1
    [ -f "$file" ] || return
    [ -n "$(find "$top/crates.txt" "$top/crates" -path "$top/crates/*/out" -prune -o -type d -path "$top/crates/*" ! -path "$top/crates/*/*" -o \
        -newer "$file" -print -quit)" ] || return 0
    recall_build "$file" && [ "${made[2]:-}" = "$(sum_sources)" ]
}

# The programs are for x86-64. Elsewhere the toolchain has an emulator, and a loader and C library for it; tools/machine.py
# has the same for python. Sets emulator, by which a program without a loader is run, and loader, which any other needs behind it.
find_runner() {
    local rt kit
    emulator=() loader=()
    [ "$(uname -m)" != x86_64 ] || return 0
    rt=$("$top/tools/find-rt") || return
    kit=${RATTLE_HOME:-$(dirname "$(dirname "$(readlink -f "$rt")")")}/on/$(uname -m)/toolchain
    emulator=("$kit/bin/qemu-x86_64")
    loader=("$kit/lib/ld-linux-x86-64.so.2" --library-path "$kit/lib")
    [ -x "${emulator[0]}" ] || { tell "the toolchain has no emulator for this machine at $kit/bin"; return 1; }
}
