# The arguments of ./damindex, which reads this where it has some: tells how it is used, builds the program, or names one that it does not take.

wrong() { # WHAT
    printf 'damindex: %s: ./damindex --help tells how it is used\n' "$1" >&2
    exit 2
}

for word in "$@"; do
    case $word in
        -h | --help | --build) ;;
        *)
            [ ! -f "$word" ] || wrong "a case file comes on standard input, as in ./damindex < '$word'"
            wrong "no argument '$word' is taken"
            ;;
    esac
done
[ $# = 1 ] || wrong "one argument is taken, and '$2' is a second"

if [ "$1" = --build ]; then
    seldom build.sh anew
    exit 0
fi

cat <<END
usage: ./damindex < FILE
       ./damindex --build
       ./damindex --help

Reads a case file from standard input and writes the answer to standard output: verdict, attained index, partial
indices, each row's share and what holds its survival down, or the number and the line of a refusal.

  --build     proves what has changed, builds the program anew and says what was built; reads no input
  -h, --help  tells this

The first run builds the program, which takes some minutes and the Rattle kit's command \`rt\`; later runs take neither.

The status is 0 whatever the answer is: an answer begins with 81, a refusal with 8f. It is 2 where the program cannot
be built, or where an argument is not taken.

How to write a file and to read the answer: $here/docs/GUIDE.md
A file to begin with: $here/examples/printed.case
END
exit 0
