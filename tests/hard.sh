#!/usr/bin/env bash
# Texts that could take long, and inputs of too many pieces: four times the brackets in small pieces take at most five times the
# processor time, four times the names in an object at most seven times. Brackets have their verdict within the default depth too.
. "$(dirname "$0")/lib.sh"

# Fewer milliseconds than these say nothing.
slack=100

# How many times the processor time four times as much may take.
most=5

# many BYTE COUNT: so many of a byte.
many() { head -c "$2" /dev/zero | tr '\0' "$1"; }

# milliseconds FILE WORD..: the processor time that a check of the file takes.
milliseconds() {
    local text=$1 user system TIMEFORMAT='%U %S'
    shift
    { time "$program" check --depth 65535 "$@" <"$text" >out 2>err; } 2>took
    read -r user system <took
    echo $((10#${user/[.,]/} + 10#${system/[.,]/}))
}

# least ONE OTHER: the lesser number.
least() { echo $(($1 < $2 ? $1 : $2)); }

# is_linear WORD..: what the check says of `text` if it takes no more than it may beside `few`, each at the best of up to twelve
# times, since other work may get in the way.
is_linear() {
    local few=99999999 took=99999999
    for _ in {1..12}; do
        few=$(least "$few" "$(milliseconds few "$@")")
        took=$(least "$took" "$(milliseconds text "$@")")
        if [ "$took" -le $((most * few + slack)) ]; then
            cat out
            return
        fi
    done
    echo "$took milliseconds, and $few for a quarter"
}

# by_pieces VERDICT PIECE..: the texts `few` and `text`, in pieces of each of these lengths.
by_pieces() {
    local verdict=$1 piece
    shift
    for piece in "$@"; do
        same "a million brackets in pieces of $piece" "$verdict" "$(is_linear --workers 4 --piece "$piece")"
    done
    same 'a million brackets by 64 workers' "$verdict" "$(is_linear --workers 64 --piece 1000)"
}

brackets_that_open_take_linear_time() {
    many '[' 250000 >few
    many '[' 1000000 >text
    by_pieces 'too deep at 65535' 7 8 100 1000 65536
}

brackets_that_close_take_linear_time() {
    many ']' 250000 >few
    many ']' 1000000 >text
    by_pieces 'stopped at 0' 7 8 100 1000 65536
}

brackets_that_open_and_close_take_linear_time() {
    many '[' 125000 >few
    many ']' 125000 >>few
    many '[' 500000 >text
    many ']' 500000 >>text
    by_pieces 'too deep at 65535' 100 1000 65536
}

brackets_in_pieces_of_a_byte_take_linear_time() {
    many '[' 10000 >few
    many '[' 40000 >text
    same 'many brackets in pieces of a byte' truncated "$(is_linear --workers 4 --piece 1)"
}

# brackets COUNT PIECE OPTION..: what many brackets that open come to within the default depth, and many that close.
brackets() {
    local count=$1 piece=$2 by
    shift 2
    by="$count brackets in pieces of $piece by ${*:-no setting}"
    same "$by, which open" 'too deep at 512' "$(many '[' "$count" | "$program" check --workers 4 --piece "$piece" "$@")"
    same "$by, which close" 'stopped at 0' "$(many ']' "$count" | "$program" check --workers 4 --piece "$piece" "$@")"
}

# Runs that keep marks take longer, so fewer brackets are read in the smallest pieces where names have to be unique.
brackets_are_refused_within_the_default_depth() {
    local piece
    for piece in 7 100 65536; do
        brackets 1000000 $piece --depth 512
        brackets 1000000 $piece --ignore-bom
    done
    brackets 100000 7 --unique-names
    brackets 100000 7 --unique-names --ignore-bom
    for piece in 100 65536; do
        brackets 1000000 $piece --unique-names
        brackets 1000000 $piece --unique-names --ignore-bom
    done
}

# object FIRST TIMES PLUS COUNT [FRONT]: an object of so many members. The names are all numbers below COUNT, a power of two, behind
# a front that is the same for all: from the first number on, the next is the last one times a factor and a number more, modulo COUNT.
object() {
    awk -v number="$1" -v times="$2" -v plus="$3" -v count="$4" -v front="$5" 'BEGIN {
        printf "{"
        number %= count
        for (i = 0; i < count; i++) {
            printf "%s\"%s%06x\":0", i ? "," : "", front, number
            number = (number * times + plus) % count
        }
        printf "}"
    }'
}

# by_names COUNT FRONT ORDER..: objects of COUNT members and of a quarter of them, whose names stand in these orders. Names in no
# order are compared n log n times, and four times as many fit less well into caches; were each compared with all, it would be 16 times.
by_names() {
    local count=$1 front=$2 order most=7
    shift 2
    for order in "$@"; do
        # shellcheck disable=SC2086 # an order is three words
        object $order $((count / 4)) "$front" >few
        # shellcheck disable=SC2086
        object $order "$count" "$front" >text
        same "$count names, the next one by $order" accepted "$(is_linear --unique-names --workers 1)"
    done
}

rising='0 1 1' falling='16777215 1 16777215'
# Runs of 256 that rise, one behind the other, and lie between one another; and no order.
combed='0 1 4097' shuffled='12345 1664525 1013904223'

many_names_take_little_more_than_linear_time() {
    by_names 262144 '' "$rising" "$falling" "$combed" "$shuffled"
}

names_that_begin_alike_take_little_more_than_linear_time() {
    by_names 32768 "$(many a 200)" "$rising" "$falling" "$shuffled"
}

# Behind the fault at 0 the bytes are counted and not looked at.
an_input_of_2_to_the_32_pieces_has_too_many() {
    local said status
    said=$(head -c 4294967296 /dev/zero | "$program" check --workers 1 --piece 1 2>&1)
    status=$?
    same 'an input of 2^32 pieces' 'status 2: jx: -: too many pieces' "status $status: $said"
}

tests brackets_that_open_take_linear_time \
    brackets_that_close_take_linear_time \
    brackets_that_open_and_close_take_linear_time \
    brackets_in_pieces_of_a_byte_take_linear_time \
    brackets_are_refused_within_the_default_depth \
    many_names_take_little_more_than_linear_time \
    names_that_begin_alike_take_little_more_than_linear_time \
    an_input_of_2_to_the_32_pieces_has_too_many
