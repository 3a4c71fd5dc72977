# Builds the program for ./damindex, which reads this where it has to: `rt` proves the crates that it stands on, compiles and links it. Tells how far
# it is on standard error, in one changing line on a terminal; what `rt` says goes to a log. Ends with status 2 where the program is not built.

# what `rt` makes, and beside it, at the end of a build of proved code alone, its mark of that
made=$here/crates/damindex/out/damindex
log=$here/target/build.log builder= teller= columns=72

say() { printf 'damindex: %s\n' "$*" >&2; }

# over TEXT: in place of what stands in the terminal's line, as much of it as goes in
over() { printf '\r\033[K%.*s' "$columns" "$*" >&2; }

seconds() { echo $(($(date +%s) - begun)); }

# how many crates the program stands on, itself among them
crates() {
    awk '
        function reach(name, needed, count, i) {
            if (name in reached || !(name in needs)) return
            reached[name]
            total++
            count = split(needs[name], needed, " ")
            for (i = 1; i <= count; i++) reach(needed[i])
        }
        { sub(/#.*/, "") }
        split($0, part, /[ \t]*:/) > 1 { needs[part[1]] = part[2] }
        END { reach("damindex"); print total + 0 }' "$here/crates.txt"
}

# the crates that the log has as proved so far: how many, how many of them anew, and the last. Each has a part of its own, under `== NAME`, which is
# empty where nothing has changed
proved() {
    awk '
        function close_part() {
            if (name != "" && !(is_tried && !is_proved)) {
                all++
                anew += is_new
                last = name
            }
            is_tried = is_proved = is_new = 0
        }
        $1 == "==" { close_part(); name = $2 == "summary" ? "" : $2; next }
        !/^rt: / { is_tried = 1 }
        /^crate [^ ]+: modules .* checked=[1-9]/ { is_new = 1 }
        /^logic=proved/ { is_proved = 1 }
        END { close_part(); print all + 0, anew + 0, last }' "$log"
}

# what the log has of a failure, the first error before the rest: not what is proved, nor what was not tried because of another, nor advice; files
# named from the top, long lines cut
why() {
    awk '
        $1 == "==" { name = $2; next }
        /: (proved|ok)$/ || /: not run, since / || /^(checked|library|statements|logic|crate|axioms|linked|help:) / || /^(logic|only)=/ { next }
        /^note: / && !/^note: [^ ]+:[0-9]+:[0-9]+: / || /^rt: (rt|chose) / || /^\(1: / || /^[0-9]+ of [0-9]+ crates ok$/ { next }
        name != "" && /^(note: )?(\.\/)?(src|specs|proofs)\// { sub(/(\.\/)?(src|specs|proofs)\//, "crates/" name "/&"); sub(/\/\.\//, "/") }
        { text = length($0) <= 240 ? $0 : substr($0, 1, 240) " .." }
        first == "" && /: error(\[[a-z-]+\])?: / { first = text; next }
        { rest[++count] = text }
        END {
            if (first != "") print first
            for (i = count > 11 ? count - 10 : 1; i <= count; i++) print rest[i]
        }' "$log"
}

# the changing line, every second, as long as this script runs
tell() {
    while kill -0 $$ 2>/dev/null; do
        set -- $(proved) # read and printed by this process itself, so that nothing is printed after it has ended
        case $1 in
            0) over "damindex: building, $n crates to prove, $(seconds) s" ;;
            *) over "damindex: building, crate $1 of $n proved ($3), $(seconds) s" ;;
        esac
        sleep 1 </dev/null >/dev/null 2>&1
    done
}

tidy() {
    if [ -n "$teller" ]; then
        kill "$teller" 2>/dev/null
        wait "$teller" 2>/dev/null
        over
    fi
}

# broken off by SIGNAL: all that `rt` has started ends too
stop() { # SIGNAL
    trap '' HUP INT TERM
    if [ -n "$builder" ]; then
        kill -s TERM -- "-$builder" 2>/dev/null || kill -s TERM "$builder" 2>/dev/null
        wait "$builder" 2>/dev/null
    fi
    tidy
    say 'the build was broken off; what was proved is kept, and the next run goes on from there'
    trap - "$1"
    kill -s "$1" $$
}

# build: leaves the program, and a line that says what was built
build() {
    n=$(crates) begun=$(date +%s)
    : >"$log" || exit 2
    # without its mark `rt` links the program anew; without that of this script what is there of an earlier build is not run any more
    rm -f "$made.stamp" "$here/target/stamp/damindex" "$here/target/toolchain"
    trap 'stop HUP' HUP
    trap 'stop INT' INT
    trap 'stop TERM' TERM
    . "$here/scripts/processors.sh"
    # the crates side by side, then the program, which `rt` runs once it is linked; in a session of its own, where there is the command for that, so
    # that it can be ended whole
    (
        CDPATH='' cd -- "$here/crates/damindex" &&
            exec $(command -v setsid) sh -c 'rt all check --jobs "$1" && exec rt run >/dev/null' sh "$jobs"
    ) </dev/null >"$log" 2>&1 &
    builder=$!
    if [ -t 2 ]; then
        size=$(stty size <&2 2>/dev/null) && [ "${size#* }" -gt 1 ] && columns=$((${size#* } - 1))
        tell 9>&- &
        teller=$!
    else
        say "building, $n crates to prove, which takes some minutes the first time; what rt says goes to $log"
    fi
    wait "$builder"
    status=$?
    tidy
    trap - HUP INT TERM
    if [ $status != 0 ] || ! [ -x "$made" ] || ! [ -f "$made.stamp" ]; then
        why >&2
        [ $status != 0 ] || say 'rt has left no mark of a proved program: is the code still as it was when the build began?'
        say "the build failed (rt all check, then rt run, in crates/damindex; status $status); all that rt said is in $log"
        exit 2
    fi
    # kept where no later run of `rt` takes it away
    mkdir -p "$here/target/bin" "$here/target/stamp" && cp -p "$made" "$program.new" && mv -f "$program.new" "$program" || exit 2
    : >"$here/target/stamp/damindex"
    [ -e "$loader" ] || seldom toolchain.sh
    proved | {
        read -r all anew last
        say "built $program in $(seconds) s: $all crates proved, $anew of them anew"
    }
}

if ! command -v rt >/dev/null; then
    if [ $# != 0 ]; then
        say "--build needs the Rattle kit's command rt, which is not on the path: see $here/README.md"
        exit 2
    fi
    state='not built yet'
    [ ! -f "$program" ] || state='older than its code, or its build was broken off'
    say "the program is $state, and the Rattle kit's command rt, which builds it, is not on the path: see $here/README.md"
    exit 2
fi
mkdir -p "$here/target" || exit 2
# one build at a time, where there is the command for that: a second run waits for the first and takes what that has built
exec 9>"$here/target/build.lock" || exit 2
if command -v flock >/dev/null && ! flock -n 9; then
    say 'another run builds it; this one waits for that'
    flock 9
fi
if [ $# = 0 ]; then is_built || build; else build; fi
exec 9>&-
