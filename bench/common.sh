# What the measurements share: the two proved programs, unless XSLU or XSSTREAM names another one, a folder that goes when
# the shell ends, and the number of instructions of a run.
here=$(cd "$(dirname "$0")/.." && pwd)
xslu=${XSLU:-$("$here/bin/proved" xslu)}
xsstream=${XSSTREAM:-$("$here/bin/proved" xsstream)}
work=$(mktemp -d)
trap 'rm -rf "$work"' EXIT

instructions() { # instructions PROGRAM WORD INPUT
  valgrind --tool=none --log-file=/dev/null true 2>/dev/null || return 1
  valgrind --tool=callgrind --callgrind-out-file=/dev/null "$1" "$2" <"$3" 2>&1 >/dev/null |
    sed -n 's/.*Collected : \([0-9]*\).*/\1/p'
}
