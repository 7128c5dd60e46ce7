# For scripts that compare texts: each thing that is wrong is told, and `wrong` is 1 from then on.
wrong=0

complain() {
    echo "$*"
    wrong=1
}

# same NAME EXPECTED GOT: two files with the same text, and some.
same() {
    if ! [ -s "$2" ]; then
        complain "$1: nothing to compare with"
    elif ! diff -u --label expected --label got "$2" "$3"; then
        complain "$1: not as expected"
    fi
}
