# Sourced by tools/run, tools/programs and tools/library, which have root, the repository's folder, and say, for messages: `built` makes a file where that is due.
# .ci/run takes `alone` for itself. One use builds at a time; the others wait, and go on with what it made.

building=$root/target/.building     # what the holder of the lock builds, for those who wait
link=$root/target/.lock
words=$root/target/build.log        # all that rt said in the last build

# built FILE CRATE HOW COMMAND..: lets COMMAND, run in the repository's folder, make FILE if it is not there yet or something under crates/ has changed
# since. CRATE is what is proved for it, HOW is COMMAND for people. Gives 0 where FILE stands as it should; 1 where it could not be made; 3 where an
# older one stands and nothing can be built here. It says so.
built() {
    file=$1 crate=$2 how=$3 made=0
    shift 3
    mark=$root/target/.${file##*/}.began kept=$root/target/.${file##*/}.kept
    due || return 0
    alone "$how"
    undo_killed
    if due; then
        build "$@"
        made=$?
    fi
    release
    return "$made"
}

# Whether FILE has to be built, and why. While a build of it is under way, and after one that was killed, the mark is there.
due() {
    why=''
    [ ! -e "$mark" ] || return 0
    if [ ! -f "$file" ]; then why='building on first use'
    elif [ -n "$(find "$root/crates" "$root/crates.txt" -name out -prune -o -newer "$file" -print 2>/dev/null | head -n 1)" ]; then
        why='building again, since something under crates/ has changed'
    else
        return 1
    fi
}

# ---- One build at a time ----

# alone HOW: waits until nobody else builds, and keeps others waiting until `release`, or until this process and all that it started have ended, however
# they ended: the lock is the system's, on crates.txt.
alone() {
    mkdir -p "$root/target" 2>/dev/null
    exec 9<"$root/crates.txt"
    flocked || alone_by_link
    { printf '%s, process %s\n' "$1" "$$" >"$building"; } 2>/dev/null
}

# A build that ends within a second is worth no word; one that does not has told by then what it is.
flocked() {
    command -v flock >/dev/null || return 1
    flock -n 9 2>/dev/null && return
    sleep 1
    flock -n 9 2>/dev/null && return
    waits
    flock 9
}

# Where the system has no flock: a link that names its holder, and is taken away once that process has ended. Only who has made the folder beside it may
# take it away, and looks again first, so that nobody takes away what another has made meanwhile. Who cannot write builds nothing, and needs no lock.
alone_by_link() {
    tries=0
    until ln -s "$$" "$link" 2>/dev/null || [ ! -w "$root/target" ]; do
        holder=$(readlink "$link") || holder=''
        if [ -n "$holder" ] && ! lives "$holder" && mkdir "$link.$holder" 2>/dev/null; then
            [ "$(readlink "$link")" != "$holder" ] || rm -f "$link"
            rmdir "$link.$holder"
        else
            [ "$tries" -ne 1 ] || waits
            tries=$((tries + 1))
            sleep 1
        fi
    done
}

# Another user's process lives too, though it may not be signalled.
lives() { kill -0 "$1" 2>/dev/null || [ -d "/proc/$1" ] || ps -p "$1" >/dev/null 2>&1; }

waits() { say "waiting for another use that builds: $(cat "$building" 2>/dev/null || echo "$link")"; }

release() {
    rm -f "$building" 2>/dev/null
    [ "$(readlink "$link" 2>/dev/null)" != "$$" ] || rm -f "$link"
    exec 9<&-
}

# ---- A build ----

# A build that was killed may have left a file that is half made, or whose run was not looked at: what was there before it comes back.
undo_killed() { [ ! -e "$mark" ] || undo 2>/dev/null; }

undo() {
    if [ -f "$kept" ]; then mv -f "$kept" "$file"; else rm -f "$file"; fi && rm -f "$mark"
}

# Why nothing can be built here, or nothing.
hindrance() {
    if ! command -v rt >/dev/null; then echo 'rt, of the Rattle kit, is not on the PATH'
    elif [ ! -w "$root/target" ]; then echo "$root/target may not be written"
    fi
}

build() {
    hindrance=$(hindrance)
    if [ -n "$hindrance" ] && [ -f "$file" ] && [ ! -e "$mark" ]; then
        say "$file is older than the sources, and cannot be built again: $hindrance"
        return 3
    elif [ -n "$hindrance" ]; then
        say "$file cannot be built: $hindrance"
        return 1
    fi
    all=$(crates_under "$crate")
    say "$why: $how, over $all crates; what rt says goes to $words"
    . "$root/tools/prover.sh"
    rm -f "$kept"
    # rt's own folders are there before the mark, so that a crate's folder does not look changed by them
    (cd "$root/crates" 2>/dev/null && for one in */; do [ -d "$one/out" ] || mkdir "$one/out"; done) 2>/dev/null
    { [ ! -f "$file" ] || cp -p "$file" "$kept"; } && touch "$mark" || { say "$root/target cannot be written"; return 1; }
    ended=$({ { (cd "$root" && "$@") 2>&1 </dev/null 4>&-; echo "$?" >&4; } | tell >"$words" 4>&-; } 4>&1)
    if [ "$ended" != 0 ] || [ ! -f "$file" ]; then
        not_built
        return 1
    fi
    # as old as the build's beginning, so that a change made meanwhile is seen
    touch -r "$mark" "$file"
    rm -f "$mark" "$kept"
    rt doc >"$root/target/.kit"     # so that it runs where rt is not on the PATH
}

# A file that the build made may stand there compiled and yet have failed its run: no later use may take it. An older one comes back.
not_built() {
    if [ "$ended" = 0 ]; then
        say "$how left no $file: remove the folder target and try again"
    else
        what_failed >&2
        say "$file could not be built: $how failed, see above; all that rt said is in $words"
    fi
    undo
}

# How many crates of the repository a crate stands on, itself among them.
crates_under() {
    awk -v crate="$1" '
        function reach(name,    words, count) {
            if (!(name in under) || name in seen) return
            seen[name]; all++
            count = split(under[name], words, " ")
            while (count) reach(words[count--])
        }
        { sub(/#.*/, "") }
        /:/ { split($0, side, ":"); split(side[1], named, " "); under[named[1]] = side[2] }
        END { reach(crate); print all + 0 }' "$root/crates.txt"
}

# Passes on what rt says, and tells each crate once, with a line when it is proved: of a crate that was proved before, rt says nothing.
tell() {
    told='' one=''
    while IFS= read -r line || [ -n "$line" ]; do
        printf '%s\n' "$line"
        case $line in
        'crate '*': '*) one=${line#crate } one=${one%%:*} && continue ;;
        'logic=proved '*) ;;
        *) continue ;;
        esac
        case " $told " in *" $one "*) continue ;; esac
        told="$told $one"
        say "proved $one"
    done
}

# What rt said, without what belongs to a crate that is proved.
what_failed() {
    awk '
        /^logic=proved / { words = ""; next }
        { words = words $0 "\n" }
        END { printf "%s", words }' "$words"
}

# program CRATE: lets rt prove and build a program, in crates/CRATE/out, run it on nothing, and puts it into target/bin.
program() {
    made=crates/$1/out/$1
    rm -f "$made" && (cd "crates/$1" && rt run "$1") && mkdir -p target/bin && cp "$made" "target/bin/$1"
}
