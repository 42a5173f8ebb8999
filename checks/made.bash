# Cases whose inputs are too large to keep, or whose standard streams fail.

check_case() {
    local case="$1" folder words=(run DIR)
    folder="$scratch/$(basename "$case")"
    mkdir "$folder"
    [ -d "$case/before" ] && cp "$case/before/"* "$folder"
    [ -e "$case/args" ] && mapfile -t words <"$case/args"

    run "${words[@]/#DIR/$folder}" <"$case/script" >"$scratch/stdout"

    want_status "$(cat "$case/status")"
    want_output "$case/stdout"
    if [ -e "$case/lane0.even" ]; then
        want_bytes "$folder/lane0.even" "$case/lane0.even"
    else
        want_bytes "$folder/lane0.even" "$case/before/lane0.even"
    fi
    want_no_more "$folder" "$case/before"
    end_case "$(basename "$case")"
}

# A standard output that takes nothing: the row is in the file all the same.
check_full_output() {
    local folder="$scratch/full_output"
    mkdir "$folder"
    run run "$folder" <"$checks/cases/row/script" >/dev/full
    want_status 6
    want_bytes "$folder/lane0.even" "$checks/cases/row/lane0.even"
    end_case full_output
}

# A standard output that is closed: no reply gets into the file that would else have its number.
check_closed_output() {
    local folder="$scratch/closed_output"
    mkdir "$folder"
    run run "$folder" <"$checks/cases/row/script" >&-
    want_status 6
    want_bytes "$folder/lane0.even" "$checks/cases/row/lane0.even"
    end_case closed_output
}

# A standard input that can't be read: it is a folder.
check_unread_input() {
    local folder="$scratch/unread_input"
    mkdir "$folder"
    echo 'fault SOURCE' >"$scratch/wanted"
    run run "$folder" <"$folder" >"$scratch/stdout"
    want_status 5
    want_output "$scratch/wanted"
    want_bytes "$folder/lane0.even" /dev/null
    end_case unread_input
}

readonly lines_of_longest=2164800

# A script of 67,108,861 bytes, and behind it this text: with three bytes it is as long as a script may be.
long_script() {
    printf '%ssession 1\n' "$kv_setup"
    yes 'SELECT * FROM kv WHERE id = 1;' | head -n "$lines_of_longest"
    echo "$1"
}

check_longest_script() {
    local folder="$fast/longest_script"
    mkdir "$folder"
    run run "$folder" < <(long_script --) >"$scratch/stdout"
    want_status 0
    { printf '%s' "$kv_shown"; yes 'rows 0' | head -n "$lines_of_longest"; } >"$scratch/wanted"
    want_output "$scratch/wanted"
    want_bytes "$folder/lane0.even" "$checks/cases/empty/lane0.even"
    end_case longest_script
}

check_one_byte_too_long() {
    local folder="$fast/one_byte_too_long"
    mkdir "$folder"
    run run "$folder" < <(long_script ---) >"$scratch/stdout"
    want_status 7
    echo 'fault SCRIPT 67108864' >"$scratch/wanted"
    want_output "$scratch/wanted"
    want_bytes "$folder/lane0.even" /dev/null
    end_case one_byte_too_long
}

check_many_inserts() {
    local count=100000 folder="$fast/many_inserts"
    mkdir "$folder"
    { printf '%ssession 1\n' "$kv_setup"; seq "$count" | sed 's/.*/INSERT INTO kv VALUES (&, -&);/'; } >"$fast/script"
    { printf '%s' "$kv_shown"; yes 'ok 1' | head -n "$count"; } >"$scratch/wanted"
    run run "$folder" <"$fast/script" >"$scratch/stdout"
    want_status 0
    want_output "$scratch/wanted"
    cmp -s -n 11 "$folder/lane0.even" "$checks/cases/empty/lane0.even" || differs 'lane0.even has another head'
    cmp -s <(od -An -v -t x1 -w25 -j 11 "$folder/lane0.even") <(batches_of "$count") ||
        differs 'lane0.even has other batches'
    end_case many_inserts
}

# So many rows of one INSERT are read, changed, looked up and taken away, in blocks of several statements: 1,000 rows a
# statement, and what is left adds up.
check_many_rows() {
    local folder="$fast/many_rows"
    mkdir "$folder"
    {
        printf '%ssession 1\n' "$kv_setup"
        for ((i = 0; i < 200; i++)); do
            printf 'INSERT INTO kv VALUES '
            seq -s ', ' -f "(${i}%03g, 1)" 0 999 | sed 's/$/;/'
        done
        echo 'SELECT COUNT(*), SUM(n) FROM kv;'
        for ((i = 0; i < 200; i++)); do
            echo "UPDATE kv SET n = n + 1 WHERE id >= ${i}000 AND id < ${i}500;"
        done
        echo 'DELETE FROM kv WHERE id >= 199000;'
        echo 'SELECT COUNT(*), SUM(n) FROM kv;'
    } >"$fast/script"
    {
        printf '%s' "$kv_shown"
        yes 'ok 1000' | head -n 200
        printf '200000, 200000\nrows 1\n'
        yes 'ok 500' | head -n 200
        printf 'ok 1000\n199000, 298500\nrows 1\n'
    } >"$scratch/wanted"
    run run "$folder" <"$fast/script" >"$scratch/stdout"
    want_status 0
    want_output "$scratch/wanted"
    printf '%ssession 1\nSELECT COUNT(*), SUM(n) FROM kv;\n' "$kv_setup" >"$fast/script"
    printf '%s199000, 298500\nrows 1\n' "$kv_shown" >"$scratch/wanted"
    run run "$folder" <"$fast/script" >"$scratch/stdout"
    want_status 0
    want_output "$scratch/wanted"
    end_case many_rows
}

# 700 rows are read in pieces of 256: ranges that end where a piece does, a row before and a row behind, and pieces between
# whose rows lie the keys that the transaction has taken rows away from.
check_rows_in_pieces() {
    local folder="$fast/rows_in_pieces" ends=(255 256 257 511 512 513 700 701) end count
    mkdir "$folder"
    {
        printf '%ssession 1\nINSERT INTO kv VALUES ' "$kv_setup"
        seq -s ', ' -f '(%.0f, 1)' 700 | sed 's/$/;/'
        for end in "${ends[@]}"; do
            echo "SELECT id FROM kv WHERE id <= $end;"
            echo "SELECT id FROM kv LIMIT $end;"
            echo "SELECT COUNT(*), SUM(id) FROM kv WHERE id <= $end;"
            echo "UPDATE kv SET n = n + 1 WHERE id <= $end;"
        done
        echo 'SELECT COUNT(*), SUM(n) FROM kv WHERE id > 256 AND id <= 512;'
        echo 'SELECT id FROM kv WHERE id > 188 ORDER BY id DESC LIMIT 600;'
        echo 'BEGIN; DELETE FROM kv WHERE id > 100 AND id <= 300;'
        echo 'SELECT COUNT(*), SUM(id) FROM kv; SELECT id FROM kv WHERE id <= 456; DELETE FROM kv WHERE id <= 456;'
        echo 'SELECT COUNT(*), SUM(id) FROM kv; ROLLBACK;'
        echo 'DELETE FROM kv WHERE id <= 512; SELECT id FROM kv; DELETE FROM kv WHERE id <> 700;'
    } >"$fast/script"
    {
        printf '%sok 700\n' "$kv_shown"
        for end in "${ends[@]}"; do
            count=$((end < 700 ? end : 700))
            seq "$count"
            echo "rows $count"
            seq "$count"
            echo "rows $count"
            printf '%d, %d\nrows 1\nok %d\n' "$count" $((count * (count + 1) / 2)) "$count"
        done
        # Of the keys from 257 to 512 the first was changed six times, those up to 511 five times, and the last four times.
        printf '256, %d\nrows 1\n' $((7 + 254 * 6 + 5))
        seq 700 -1 189
        printf 'rows 512\nok\nok 200\n500, %d\nrows 1\n' $((700 * 701 / 2 - 300 * 301 / 2 + 100 * 101 / 2))
        seq 100
        seq 301 456
        printf 'rows 256\nok 256\n244, %d\nrows 1\nok\nok 512\n' $((700 * 701 / 2 - 456 * 457 / 2))
        seq 513 700
        printf 'rows 188\nok 187\n'
    } >"$scratch/wanted"
    run run "$folder" <"$fast/script" >"$scratch/stdout"
    want_status 0
    want_output "$scratch/wanted"
    step "$folder" 0 "$kv_setup"$'session 1\nSELECT * FROM kv;\n' "$kv_shown"$'700, 3\nrows 1\n'
    end_case rows_in_pieces
}

# A thousand times this text.
thousand() {
    yes "$1" | head -n 1000 | tr -d '\n'
}

# A block of 2,000 statements, and statements of 1,000 steps, columns, totals and conditions.
check_long_statements() {
    local folder="$fast/long_statements"
    mkdir "$folder"
    {
        printf '%ssession 1\nINSERT INTO kv VALUES (1, 10), (2, 20);\nBEGIN;\n' "$kv_setup"
        yes $'UPDATE kv SET n = n + 1;\nSELECT * FROM kv WHERE id = 3;' | head -n 2000
        echo 'COMMIT;'
        echo "UPDATE kv SET n = n$(thousand ' + 1');"
        echo "SELECT id$(thousand ', n') FROM kv WHERE id = 1;"
        echo "SELECT COUNT(*)$(thousand ', SUM(id)') FROM kv;"
        echo "DELETE FROM kv WHERE id = 2$(thousand ' AND n <> 3');"
        echo 'SELECT * FROM kv;'
    } >"$fast/script"
    {
        printf '%sok 2\nok\n' "$kv_shown"
        yes $'ok 2\nrows 0' | head -n 2000
        printf 'ok\nok 2\n1%s\nrows 1\n2%s\nrows 1\n' "$(thousand ', 2010')" "$(thousand ', 3')"
        printf 'ok 1\n1, 2010\nrows 1\n'
    } >"$scratch/wanted"
    run run "$folder" <"$fast/script" >"$scratch/stdout"
    want_status 0
    want_output "$scratch/wanted"
    end_case long_statements
}

# With 20 MB of memory not all of 200,000 rows fit: the block that finds none is undone, it and those behind it are
# stopped, and the next session runs. What was answered is in the file.
check_out_of_memory() {
    local folder="$fast/out_of_memory" done_blocks
    mkdir "$folder"
    {
        printf '%ssession 1\n' "$kv_setup"
        for ((i = 0; i < 200; i++)); do
            printf 'INSERT INTO kv VALUES '
            seq -s ', ' -f "(${i}%03g, 1)" 0 999 | sed 's/$/;/'
        done
        printf 'session 2\nINSERT INTO kv VALUES (-1, 1);\n'
    } >"$fast/script"
    (ulimit -v 20000; exec "$program" run "$folder") <"$fast/script" >"$scratch/stdout" 2>"$scratch/stderr"
    status=$?
    want_status 3
    done_blocks="$(grep -c '^ok 1000$' "$scratch/stdout")"
    [ "$done_blocks" -gt 0 ] && [ "$done_blocks" -lt 200 ] || differs "$done_blocks blocks are answered"
    {
        printf '%s' "$kv_shown"
        yes 'ok 1000' | head -n "$done_blocks"
        yes 'stopped MEMORY' | head -n $((200 - done_blocks))
        printf 'session 2\nok 1\nfault MEMORY\n'
    } >"$scratch/wanted"
    want_output "$scratch/wanted"
    step "$folder" 0 "$kv_setup"$'session 1\nSELECT COUNT(*) FROM kv;\n' "$kv_shown$((1000 * done_blocks + 1))"$'\nrows 1\n'
    end_case out_of_memory
}
