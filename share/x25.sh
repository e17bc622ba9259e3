#!/bin/sh
# What is installed as `x25`: it runs the program, and by their words the scripts beside it. It says what reads a
# capture, where the program is given one.
there=$(readlink -f "$0")
there=${there%/bin/*}

# Says of a file that it is a capture, or packed by gzip, which the program doesn't read.
look_at() {
    case $(od -An -tx1 -N4 "$1" 2> /dev/null) in
    " a1 b2 c3 d4" | " d4 c3 b2 a1" | " a1 b2 3c 4d" | " 4d 3c b2 a1" | " 0a 0d 0d 0a")
        echo "x25: this is a capture: \`x25 dump\` shows it, \`x25 dump --judge\` judges it, and \`x25 convert\` makes lines of it" >&2
        ;;
    " 1f 8b "*)
        echo "x25: this is packed by gzip: \`x25 dump\` reads it" >&2
        ;;
    esac
}

case ${1-} in
bridge | chart | convert | dump | losses | pad | pcap | report)
    exec "$there/bin/x25tools" "$@"
    ;;
decode | frame | judge | sim)
    for last; do :; done
    if [ -f "$last" ]; then look_at "$last"; elif [ -f /dev/stdin ]; then look_at /dev/stdin; fi
    ;;
-h | --help | help)
    if [ $# = 1 ]; then
        "$there/libexec/x25" "$1" && echo && exec "$there/bin/x25tools" --help
        exit
    fi
    ;;
esac
exec "$there/libexec/x25" "$@"
