# What ./analyse and ./capitals do: run the program $name of the repository $root on the file that is named, or on
# standard input. The program is built first where it is missing; where the Rattle kit is on the path, also where it is
# older than its sources.
# Exit status: 0 what the program gives for a file, 1 a refused file, 2 wrong use or a file that cannot be read,
# 3 a program that cannot be built or output that cannot be written.
program=$root/target/bin/$name
log=$root/target/$name.log
. "$root/tools/progress.sh"

# Says why nothing is printed, and ends with this status.
fail() { # STATUS TEXT
    echo "$name: $2" >&2
    exit "$1"
}

# Only code makes a program: definitions and proofs that are newer do not.
is_current() {
    [ -x "$program" ] || return 1
    command -v rt >/dev/null || return 0
    for source in "$root/crates.txt" "$root"/crates/*/src/*.rt; do
        [ ! "$source" -nt "$program" ] || return 1
    done
}

build() {
    command -v rt >/dev/null || fail 3 "the program is not built, and the Rattle kit's command rt is not on the path"
    echo "$name: building the program; its proofs are checked first, which takes some minutes" >&2
    mkdir -p "$root/target" || exit 3
    ("$root/tools/build" "$name"; echo "status $?") 2>&1 | tee "$log" | progress >&2
    [ "$(tail -n 1 "$log")" = "status 0" ] || fail 3 "not proved; what the prover said is in $log"
}

case $#:$1 in
0: | 1:-) ;;
1:-h | 1:--help)
    sed -n '2,5s/^# //p' "$root/$name"
    exit 0
    ;;
1:-*) fail 2 "usage: ./$name [FILE]" ;;
1:*)
    [ -e "$1" ] || fail 2 "$1: there is no such file"
    [ ! -d "$1" ] || fail 2 "$1: it is a directory"
    [ -r "$1" ] || fail 2 "$1: no permission to read it"
    exec <"$1"
    ;;
*) fail 2 "usage: ./$name [FILE]" ;;
esac
is_current || build </dev/null
printed=$("$program") || fail 3 "the program ended with status $?"
[ -n "$printed" ] || exit 2 # the program has said that its input cannot be read
printf '%s\n' "$printed" 2>/dev/null || fail 3 "what it prints cannot be written"
case $printed in
refused*) exit 1 ;;
esac
