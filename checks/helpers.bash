# The words that cases use: they run the program, compare what it printed, its status and its files, and count.

passed=0
failed=0
skipped=0
differences=()

if [ -n "${PTIME_BIN:-}" ]; then
    readonly program="$PTIME_BIN"
else
    readonly program="$checks/../crates/ptime/out/ptime"
fi

differs() {
    differences+=("$1")
}

# Counts a case, by what differed since the last one.
end_case() {
    if [ "${#differences[@]}" -eq 0 ]; then
        passed=$((passed + 1))
    else
        failed=$((failed + 1))
        printf 'FAILED %s:' "$1"
        printf ' %s;' "${differences[@]}"
        printf '\n'
    fi
    differences=()
}

# So many cases can't be run here, for this reason.
skip_cases() {
    echo "skipped: $2"
    skipped=$((skipped + $1))
}

# Runs the program with these words and keeps its status. Standard output goes where the caller sends it.
run() {
    timeout 300 "$ptime" "$@" 2>"$scratch/stderr"
    status=$?
    [ -s "$scratch/stderr" ] && differs "standard error has $(printf '%q' "$(head -c 200 "$scratch/stderr")")"
}

want_status() {
    [ "$status" -eq "$1" ] || differs "status is $status, wanted $1"
}

# What was printed is what this file holds.
want_output() {
    cmp -s "$scratch/stdout" "$1" && return
    differs "printed $(printf '%q' "$(head -c 200 "$scratch/stdout")"), wanted $(printf '%q' "$(head -c 200 "$1")")"
}

hex() {
    od -An -v -t x1 "$1" | tr -d ' \n' | head -c 200
}

# The first file has the bytes of the second. A file that isn't there has none.
want_bytes() {
    local got="$1" wanted="$2"
    [ -e "$got" ] || got=/dev/null
    [ -e "$wanted" ] || wanted=/dev/null
    cmp -s "$got" "$wanted" || differs "$(basename "$1") is '$(hex "$got")', wanted '$(hex "$wanted")'"
}

# Nothing in the folder but the log file and what lay there before, and that with the same bytes.
want_no_more() {
    local folder="$1" before="$2" path name
    for path in "$folder"/*; do
        name="$(basename "$path")"
        [ "$name" = lane0.even ] && continue
        if [ -e "$before/$name" ]; then
            want_bytes "$path" "$before/$name"
        else
            differs "there is a file $name"
        fi
    done
}

# Runs a script over a folder. Beside the last two words come the lines of the script and of what has to be printed.
step() {
    local folder="$1" wanted="$2" script="$3" shown="$4"
    run run "$folder" < <(printf '%s' "$script") >"$scratch/stdout"
    printf '%s' "$shown" >"$scratch/wanted"
    want_status "$wanted"
    want_output "$scratch/wanted"
}

# Makes a file of the bytes that these digits stand for.
put_hex() {
    printf "$(sed 's/../\\x&/g' <<<"$2")" >"$1"
}

want_hex() {
    put_hex "$scratch/bytes" "$2"
    want_bytes "$1" "$scratch/bytes"
}

readonly kv_setup=$'setup\nCREATE TABLE kv (id INT PRIMARY KEY, n INT);\n'
readonly kv_shown=$'setup\nok\nsession 1\n'
readonly three_inserts="$kv_setup"$'session 1\nINSERT INTO kv VALUES (1, 10);\nINSERT INTO kv VALUES (2, 20);\nINSERT INTO kv VALUES (3, 30);\n'
readonly three_lookups="$kv_setup"$'session 1\nSELECT * FROM kv WHERE id = 1;\nSELECT * FROM kv WHERE id = 2;\nSELECT * FROM kv WHERE id = 3;\n'
readonly disk_fault=$'fault DISK lane0.even\n'

readonly head_hex=0102000000000000000000
readonly row_hex=01140000000100000101000000000000000a00000000000000

# The 8 bytes of a number, lowest first, as od prints them.
number_bytes() {
    local digits
    printf -v digits '%016x' "$1"
    bytes=" ${digits:14:2} ${digits:12:2} ${digits:10:2} ${digits:8:2}"
    bytes+=" ${digits:6:2} ${digits:4:2} ${digits:2:2} ${digits:0:2}"
}

# Line by line the batches of the rows 1, -1 up to N, -N, one in each, and the gate after them.
batches_of() {
    local i bytes key
    for ((i = 1; i <= $1; i++)); do
        number_bytes "$i"
        key="$bytes"
        number_bytes "-$i"
        echo " 01 14 00 00 00 01 00 00 01$key$bytes"
    done
    echo ' 00'
}

new_folder() {
    rm -rf "$scratch/traced"
    mkdir "$scratch/traced"
    folder="$scratch/traced"
}

# A folder whose log file has the row 1, 10.
folder_with_row() {
    new_folder
    put_hex "$folder/lane0.even" "$head_hex${row_hex}00"
}

# Runs a script over a folder under strace, which looks at the calls on one path alone and does what its last word says.
# Beside the folder come the script, that path, the word, and further words of strace.
run_traced() {
    local folder="$1" path="$3" does="$4"
    printf '%s' "$2" >"$scratch/script"
    shift 4
    # The shell tells of a program that was killed, on its own standard error.
    {
        timeout 300 strace -f -qq -o "$scratch/calls" -P "$path" -e "$does" "$@" \
            "$program" run "$folder" <"$scratch/script" >"$scratch/stdout" 2>"$scratch/stderr"
        status=$?
    } 2>/dev/null
}

want_shown() {
    printf '%s' "$1" >"$scratch/wanted"
    want_output "$scratch/wanted"
}

# The calls on the log file, in order, with the length and the place of each read and write.
calls_on_log() {
    sed -E 's/^[0-9]+ +//; s/^(pwrite64|pread64)\([0-9]+, ".*"(\.\.\.)?, ([0-9]+), ([0-9]+)\).*/\1 \3 \4/; s/\(.*//' "$scratch/calls"
}

# Whether strace is there, and may trace.
can_trace() {
    command -v strace >/dev/null && strace -qq -o "$scratch/calls" true 2>/dev/null
}
