# What check, join, preview and hide share; they source this. `name` is the script's name and `base` the repository.

fail() {
    printf '%s: %s\n' "$name" "$*" >&2
    exit 2
}

# Says whether a file can be read at all.
need_file() {
    [ -e "$1" ] || fail "$1: there is no such file"
    [ -d "$1" ] && fail "$1: this is a directory"
    [ -r "$1" ] || fail "$1: it may not be read"
}

# A directory for temporary files, gone when the script ends.
make_room() {
    room=$(mktemp -d) || fail 'there is no room for temporary files'
    trap 'rm -rf "$room"' EXIT
    trap 'exit 2' HUP INT PIPE TERM
}

# Writes the records of file $1, which is text or bytes, to file $2; other arguments are options of `table_text.py encode`.
# Bytes that are not empty hold a byte 0; a text holds none.
records_of() {
    given=$1
    records=$2
    shift 2
    cat < "$given" > "$records" || fail "$given: it was not read"
    if [ -s "$records" ] && [ "$(tr -cd '\000' < "$records" | wc -c)" -eq 0 ]; then
        mv "$records" "$room/text"
        python3 -B "$base/tools/table_text.py" encode "$@" "$room/text" > "$records" || fail "$given: no records were made of this text"
    fi
}

# Writes the records of files $1, $2 and $3, two tables and what is added, to the files first, second and added of a new $room.
join_records() {
    for file in "$@"; do
        need_file "$file"
    done
    make_room
    records_of "$1" "$room/first"
    records_of "$2" "$room/second"
    records_of "$3" "$room/added" --added
}

# Sets `program` to the program of crate $1. It is built where it is missing, or where code, definitions or proofs are newer than the last build that
# passed. That time is kept apart: rt goes by contents, and leaves a program that need not change as old as it is.
need_program() {
    program=$base/target/bin/$1
    built=$base/target/$1.built
    if ! [ -x "$program" ] || ! [ -e "$built" ] ||
        [ -n "$(find "$base"/crates.txt "$base"/crates/*/src "$base"/crates/*/specs "$base"/crates/*/proofs -newer "$built")" ]; then
        echo "$name: proving and building the $name program, which takes minutes at first use" >&2
        touch "$room/begun"
        "$base/tools/build" "$1" < /dev/null >&2 || fail "the $name program was not built"
        touch -r "$room/begun" "$built"
    fi
}

# Prints `answer`, what the program said, and sets `status`: 0 consistent (answer 0), 1 any other answer.
print_answer() {
    case $answer in
    'answer unread') fail "the $name program could not read its input" ;;
    'answer 0'*) status=0 ;;
    'answer '*) status=1 ;;
    *) fail "the $name program gave no answer" ;;
    esac
    printf '%s\n' "$answer" 2> /dev/null || fail 'the answer was not written'
}

# Writes the table that the program made, in $room/made, to standard output; where $room/said says why there is none, prints that to standard
# error, with status 1.
write_table() {
    answer=$(cat "$room/said")
    if [ -n "$answer" ]; then
        print_answer >&2
        exit 1
    fi
    cat "$room/made" 2> /dev/null || fail 'the table was not written'
}
