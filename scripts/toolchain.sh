# Where the kit's toolchain is, as `tools`. It is kept in target/, so that a program that is built needs no `rt` on the path.
kept=$here/target/toolchain
if [ -f "$kept" ]; then
    read -r tools <"$kept"
elif kit=$(command -v rt); then
    tools=$(dirname "$(dirname "$(readlink -f "$kit")")")/toolchain
    (printf '%s\n' "$tools" >"$kept") 2>/dev/null
else
    echo "damindex: this machine runs the program by the Rattle kit, and the kit's command rt is not on the path: see $here/README.md" >&2
    exit 2
fi
