# Proves and builds a program or a library, and says how far it is; a script sources it where something is to be built.

# The crates that a crate needs, itself last among them, in the order in which rt goes through them: each behind those that it knows.
crates_needed() {
    awk -v crate="$1" '
        function visit(name,    names, count, each) {
            if (name in needed || !(name in below)) return
            needed[name]
            count = split(below[name], names, " ")
            for (each = 1; each <= count; each++) visit(names[each])
            print name
        }
        { sub(/#.*/, "") }
        at = index($0, ":") { split(substr($0, 1, at - 1), words, " "); below[words[1]] = substr($0, at + 1) }
        END { visit(crate) }' "$top/crates.txt"
}

# Of all that rt says, a line for each crate that it proves, with the time gone by since the start; what has not changed since
# it was last proved is not told. The last crate needs all the others, and the longest silence comes before it.
tell_crates() {
    local line crate checked count all began=$SECONDS gone more needed=("$@")
    all=${#needed[@]} crate=
    while IFS= read -r line; do
        if [[ $line =~ ^'crate '([A-Za-z0-9_]+)': modules loaded='[0-9]+' checked='([0-9]+)$ ]]; then
            crate=${BASH_REMATCH[1]} checked=${BASH_REMATCH[2]}
            continue
        fi
        [[ $line = 'logic=proved '* && -n $crate ]] || continue
        for ((count = 1; count <= all; count++)); do
            [ "${needed[count - 1]}" != "$crate" ] || break
        done
        crate=
        [ "$count" -le "$all" ] || continue
        gone=$((SECONDS - began)) more=
        if [ "$count" -eq $((all - 1)) ]; then
            more="; the last takes longest"
        elif [ "$checked" -eq 0 ]; then
            continue
        fi
        printf '%d of %d: %s, %d:%02d%s\n' "$count" "$all" "${needed[count - 1]}" $((gone / 60)) $((gone % 60)) "$more" >&2
    done
}

# The prover goes on behind an interrupted rt. So all that a build starts is a process group of its own, and is ended whole.
give_up() {
    trap - INT TERM HUP
    if [ -n "$group" ]; then
        kill -TERM -- "-$group" 2>/dev/null || true
        wait "$group" || true
    fi
    rm -rf "$room"
    tell "the build was interrupted; what is proved already stays so"
    exit $((128 + $1))
}

# What rt's VERB leaves in the folder of a crate.
made_by() {
    case $1 in
    run) printf 'out/%s\n' "$2" ;;
    lib) printf 'out/lib%s.a\n' "$2" ;;
    esac
}

# rt works in the folder of the crate. It runs a program once it is built, on no input, and ends with the program's status; so
# what it was asked for is there, or it could not be built. It is given a temporary folder that is removed here, and that
# other users can pass through.
prove() {
    local rt=$1 verb=$2 crate=$3 log=$4 file=$5 made needed=()
    made=$top/crates/$crate/$(made_by "$verb" "$crate")
    mapfile -t needed < <(crates_needed "$crate")
    room='' group=''
    trap 'give_up 2' INT
    trap 'give_up 15' TERM
    trap 'give_up 1' HUP
    : >"$log"
    rm -f "$made"
    room=$(mktemp -d) && chmod 711 "$room" || return
    set -m
    (cd "$top/crates/$crate" && TMPDIR=$room "$rt" "$verb" 2>&1 </dev/null | tee "$log" | tell_crates "${needed[@]}") &
    group=$!
    set +m
    wait "$group" || true
    trap - INT TERM HUP
    rm -rf "$room"
    [ -f "$made" ] && keep "$made" "$file"
}

# The input is the program's, and standard output no place for what the build says. WHAT is spoken of, FILE is where that is
# put which rt's VERB makes of CRATE, and rt's own words go to LOG.
build() {
    local what=$1 file=$2 crate=$3 verb=$4 log=$5 rt all
    rt=$("$top/tools/find-rt") || exit 2
    take_turn
    if ! fresh "$file"; then
        mkdir -p "$top/target" 2>/dev/null && [ -w "$top/target" ] ||
            refuse "$what is not built of these sources, and $top/target, where it would be, cannot be written"
        begin_build
        all=$(crates_needed "$crate" | wc -l)
        tell "$what is proved and built first: $all crates, the better part of an hour where none is proved yet, and 4 GB of memory"
        prove "$rt" "$verb" "$crate" "$log" "$file" || {
            tail -n 12 "$log" >&2
            refuse "$what could not be built; above are the last lines of $log"
        }
        record_build "$file" "$rt"
    fi
    end_turn
}

# The library is its own crate, for an archive can be no library that other crates know.
build_library() {
    build "the library" "$library" embed_c lib "$top/target/library-build.log"
}
