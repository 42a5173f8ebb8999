# Cases of a log file that an earlier run, or nobody, has left.

# Four runs over one folder: an empty script, a row, the row again with another value, and what is no script.
check_rows_in_order() {
    local folder="$scratch/rows_in_order"
    mkdir "$folder"
    step "$folder" 0 '' ''
    want_hex "$folder/lane0.even" "${head_hex}00"
    step "$folder" 0 "$kv_setup"$'session 1\nINSERT INTO kv VALUES (1, 10);\nSELECT * FROM kv WHERE id = 1;\n' \
        "$kv_shown"$'ok 1\n1, 10\nrows 1\n'
    want_hex "$folder/lane0.even" "$head_hex${row_hex}00"
    step "$folder" 0 "$kv_setup"$'session 1\nINSERT INTO kv VALUES (1, 9);\nSELECT * FROM kv WHERE id = 2;\n' \
        "$kv_shown"$'refused DUPLICATE 1\nrows 0\n'
    want_hex "$folder/lane0.even" "$head_hex${row_hex}00"
    step "$folder" 7 $'session 2\n' $'fault SCRIPT 0\n'
    want_hex "$folder/lane0.even" "$head_hex${row_hex}00"
    end_case rows_in_order
}

# A folder is opened five times, with 1,000 inserts in each run, and then all rows are looked up.
check_five_openings() {
    local folder="$fast/five_openings" last first
    mkdir "$folder"
    { printf '%s' "$kv_shown"; yes 'ok 1' | head -n 1000; } >"$scratch/wanted"
    for last in 1000 2000 3000 4000 5000; do
        first=$((last - 999))
        { printf '%ssession 1\n' "$kv_setup"; seq "$first" "$last" | sed 's/.*/INSERT INTO kv VALUES (&, -&);/'; } >"$fast/script"
        run run "$folder" <"$fast/script" >"$scratch/stdout"
        want_status 0
        want_output "$scratch/wanted"
        cmp -s <(od -An -v -t x1 -w25 -j 11 "$folder/lane0.even") <(batches_of "$last") ||
            differs "lane0.even has other batches after $last"
    done
    { printf '%ssession 1\n' "$kv_setup"; seq 0 5001 | sed 's/.*/SELECT * FROM kv WHERE id = &;/'; } >"$fast/script"
    { printf '%s' "$kv_shown"; echo 'rows 0'; seq 5000 | sed 's/.*/&, -&\nrows 1/'; echo 'rows 0'; } >"$scratch/wanted"
    run run "$folder" <"$fast/script" >"$scratch/stdout"
    want_status 0
    want_output "$scratch/wanted"
    end_case five_openings
}

# What the bytes that these digits stand for read as, over the table kv alone: not open, damaged at a place, or a log with
# the digits of its batches and the rows that these leave. It is written without a look at how the program reads.
read_hex() {
    local digits="$1" at length end kind key
    reading=closed place= batches=
    rows=()
    [[ "$digits" == 01* ]] || return 0
    reading=damaged place=0
    [ "${#digits}" -ge 22 ] || return 0
    place=1
    from_hex "${digits:2:16}"
    [ "$number" -gt 0 ] && [ $((number % 2)) -eq 0 ] || return 0
    place=9
    [ "${digits:18:4}" = 0000 ] || return 0
    for ((at = 22; ; at = end)); do
        [ "${digits:at:2}" = 01 ] || break
        place=$((at / 2))
        [ "${#digits}" -ge $((at + 10)) ] || return 0
        length_at "$at"
        end=$((at + 10 + 2 * length))
        [ "$length" -gt 0 ] && [ "$end" -le "${#digits}" ] || return 0
    done
    place=1
    from_hex "${digits:2:16}"
    [ "$number" -eq 2 ] || return 0
    for ((at = 22; ; at = end)); do
        [ "${digits:at:2}" = 01 ] || break
        length_at "$at"
        end=$((at + 10 + 2 * length))
        play_hex "$((at + 10))" "$end" || return 0
    done
    place=11
    [ "$at" -lt "${#digits}" ] || return 0
    reading=open batches="${digits:22:at-22}"
}

# How many bytes the body behind the gate at this digit has.
length_at() {
    length=$((16#${digits:$1+8:2}${digits:$1+6:2}${digits:$1+4:2}${digits:$1+2:2}))
}

# Plays the changes of a body, from one digit to another. Where no change stands, or an absent row is taken away, that is
# the place.
play_hex() {
    local at="$1" end="$2" key
    while [ "$at" -lt "$end" ]; do
        place=$((at / 2))
        if [[ "${digits:at:8}" = 01000001 && $((at + 40)) -le "$end" ]]; then
            from_hex "${digits:at+8:16}"
            key="$number"
            from_hex "${digits:at+24:16}"
            rows[$key]="$number"
            at=$((at + 40))
        elif [[ "${digits:at:6}" = 020000 && $((at + 22)) -le "$end" ]]; then
            from_hex "${digits:at+6:16}"
            [ -n "${rows[$number]:-}" ] || return 1
            unset "rows[$number]"
            at=$((at + 22))
        else
            return 1
        fi
    done
}

# A number of 16 digits, its lowest byte first.
from_hex() {
    number=$((16#${1:14:2}${1:12:2}${1:10:2}${1:8:2}${1:6:2}${1:4:2}${1:2:2}${1:0:2}))
}

readonly new_row_hex=01140000000100000107000000000000004600000000000000

# Over a file of these bytes a run lists all rows, and inserts 7, 70.
try_hex() {
    local folder="$fast/tried" script shown written="$1" key
    declare -A rows
    put_hex "$folder/lane0.even" "$1"
    read_hex "$1"
    script="$kv_setup"$'session 1\nSELECT * FROM kv;\nINSERT INTO kv VALUES (7, 70);\n'
    if [ "$reading" = damaged ]; then
        step "$folder" 8 "$script" "fault DAMAGED lane0.even $place"$'\n'
    else
        shown="$kv_shown"
        for key in $(printf '%s\n' "${!rows[@]}" | sort -n); do
            shown+="$key, ${rows[$key]}"$'\n'
        done
        step "$folder" 0 "$script" "$shown""rows ${#rows[@]}"$'\nok 1\n'
        written="$head_hex$batches${new_row_hex}00"
        written+="${1:${#written}}"
    fi
    want_hex "$folder/lane0.even" "$written"
    tried=$((tried + 1))
}

# The log of the row 1, 10, set and then taken away, cut at each length, and with each of its bytes changed.
check_every_byte() {
    local whole="$head_hex${row_hex}010b000000020000010000000000000000" place byte tried=0 at
    mkdir "$fast/tried"
    for ((at = 0; at < ${#whole}; at += 2)); do
        try_hex "${whole:0:at}"
        for byte in 00 01 02 ff; do
            try_hex "${whole:0:at}$byte${whole:at+2}"
        done
        end_case "every_byte at $((at / 2))"
    done
    [ "$tried" -eq 265 ] || differs "tried $tried files"
    end_case every_byte
}

# A log whose batches have so many changes of the row 1 in all, 3,276 in each but the last, and a gate.
log_of() {
    local left="$1" count
    {
        echo -n "$head_hex"
        while [ "$left" -gt 0 ]; do
            count=$((left < 3276 ? left : 3276))
            printf '01%08X' $((20 * count)) | sed -E 's/(..)(..)(..)(..)(..)/\1\5\4\3\2/'
            yes 0100000101000000000000000A00000000000000 | head -n "$count" | tr -d '\n'
            left=$((left - count))
        done
        echo -n 00
    } | tr -d '\n' | basenc -d --base16
}

# With 3,341,516 changes a log uses 66,835,432 bytes: a block is taken where at most 66,846,592 are used. One of 30,000 more
# is behind that place, and a block that only reads is refused too.
check_log_full() {
    local folder="$fast/log_full" script shown
    mkdir "$folder"
    log_of 3341516 >"$folder/lane0.even"
    [ "$(stat -c %s "$folder/lane0.even")" -eq 66835432 ] || differs "the log has $(stat -c %s "$folder/lane0.even") bytes"
    script="$kv_setup"'session 1
INSERT INTO kv VALUES '"$(seq -s ', ' -f '(%g, 0)' 2 601)"';
INSERT INTO kv VALUES (0, 0);
BEGIN;
SELECT * FROM kv WHERE id = 1;
COMMIT;
SELEC;
'
    shown="$kv_shown"'ok 600
refused LOG FULL 66847437 67108864
refused LOG FULL 66847437 67108864
refused NO BLOCK
refused NO BLOCK
refused SYNTAX '"$((${#script} - 7))"'
'
    step "$folder" 0 "$script" "$shown"
    [ "$(stat -c %s "$folder/lane0.even")" -eq 66847437 ] || differs "the log has $(stat -c %s "$folder/lane0.even") bytes"
    step "$folder" 0 "$kv_setup"$'session 1\nINSERT INTO kv VALUES (1, 0);\n' "$kv_shown"$'refused LOG FULL 66847437 67108864\n'
    rm -rf "$folder"
    end_case log_full
}

# A batch may end at place 67,108,864, and none behind it.
check_longest_log() {
    local folder="$fast/longest_log" script="$kv_setup"$'session 1\nSELECT * FROM kv;\n' size
    mkdir "$folder"
    log_of 3355186 >"$folder/lane0.even"
    size="$(stat -c %s "$folder/lane0.even")"
    [ "$size" -eq 67108857 ] || differs "the log has $size bytes"
    step "$folder" 0 "$script" "$kv_shown""refused LOG FULL $size 67108864"$'\n'
    log_of 3355187 >"$folder/lane0.even"
    size="$(stat -c %s "$folder/lane0.even")"
    [ "$size" -eq 67108877 ] || differs "the longer log has $size bytes"
    step "$folder" 8 "$script" "fault DAMAGED lane0.even $((size - 1 - 5 - 20 * (3355187 % 3276)))"$'\n'
    rm -rf "$folder"
    end_case longest_log
}
