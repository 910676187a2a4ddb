# What is said to people.

# fail STATUS LINE: says one line and ends
fail() {
    echo "v30: $2" >&2
    exit "$1"
}

# odd LINE: ends because of odd words
odd() {
    fail 2 "$1; 'v30 help' says what there is"
}

# show FILE: prints a file; whoever reads and has enough is no fault
show() {
    local said
    { said=$(cat -- "$1" 2>&1 >&3); } 3>&1
    case $? in
    0 | 141) ;;
    *) [[ $said == *'Broken pipe'* ]] || fail 1 "cannot write to standard output" ;;
    esac
}
