# What happens where a call of the system fails, is interrupted, or is the last one before the process is killed. strace
# makes that happen at the call of a given name and number.

# So many of the three inserts are acknowledged, and the run stops at the next one; with none begun say none.
shown_stopping() {
    local i
    if [ "$1" != none ]; then
        printf '%s' "$kv_shown"
        for ((i = 0; i < 3; i++)); do
            if [ "$i" -lt "$1" ]; then echo 'ok 1'; else echo stopped; fi
        done
    fi
    printf '%s' "$disk_fault"
}

# A later run finds the first so many rows: at least the first number, at most the second.
want_rows_between() {
    local rows shown i
    run run "$1" < <(printf '%s' "$three_lookups") >"$scratch/stdout"
    want_status 0
    for ((rows = $2; rows <= $3; rows++)); do
        shown="$kv_shown"
        for i in 1 2 3; do
            if [ "$i" -le "$rows" ]; then shown+="$i, ${i}0"$'\nrows 1\n'; else shown+=$'rows 0\n'; fi
        done
        cmp -s "$scratch/stdout" <(printf '%s' "$shown") && return
    done
    differs "a later run finds other rows than the first $2 to $3"
}

# How many of the inserts are acknowledged where the call of this name and number is the last one, and which one it
# belongs to. An opening over no file has four syncs and three writes, and each insert two of both.
place_of() {
    local opening=3
    [ "$1" = fdatasync ] && opening=4
    if [ "$2" -le "$opening" ]; then
        before=none least=0 most=0
    else
        before=$((($2 - opening - 1) / 2)) least=$before most=$((before + 1))
    fi
}

# Each write and each sync of the log file fails in turn, is interrupted in turn, and is where the process is killed.
check_faults_of_changes() {
    local folder call number before least most
    for call in pwrite64:9 fdatasync:10; do
        for ((number = 1; number <= ${call#*:}; number++)); do
            place_of "${call%:*}" "$number"

            new_folder
            run_traced "$folder" "$three_inserts" "$folder/lane0.even" "inject=${call%:*}:error=EIO:when=$number"
            want_status 4
            want_shown "$(shown_stopping "$before")"$'\n'
            want_rows_between "$folder" "$least" "$most"
            end_case "${call%:*} $number fails"

            new_folder
            run_traced "$folder" "$three_inserts" "$folder/lane0.even" "inject=${call%:*}:error=EINTR:when=$number"
            want_status 0
            want_shown "$kv_shown"$'ok 1\nok 1\nok 1\n'
            want_rows_between "$folder" 3 3
            end_case "${call%:*} $number is interrupted"

            new_folder
            run_traced "$folder" "$three_inserts" "$folder/lane0.even" "inject=${call%:*}:signal=KILL:when=$number"
            want_status 137
            want_shown ''
            want_rows_between "$folder" "$least" "$most"
            end_case "killed at ${call%:*} $number"
        done
    done
}

# Ten blocks, each of which changes the row of the one before, puts one of its own and takes the other away.
ten_blocks() {
    local i
    printf '%ssession 1\n' "$kv_setup"
    for ((i = 1; i <= 10; i++)); do
        printf 'BEGIN;\nUPDATE kv SET n = %d;\nINSERT INTO kv VALUES (%d, %d);\nDELETE FROM kv WHERE id < %d;\nCOMMIT;\n' \
            "$i" "$i" "$i" "$i"
    done
}

# The process is killed at each write and at each sync of ten blocks. A later run finds the row of a block alone: of the
# last one that was done, or of the next.
check_kills_of_blocks() {
    local folder call number before least most wanted script
    script="$(ten_blocks)"$'\n'
    for call in pwrite64:23 fdatasync:24; do
        for ((number = 1; number <= ${call#*:}; number++)); do
            place_of "${call%:*}" "$number"
            new_folder
            run_traced "$folder" "$script" "$folder/lane0.even" "inject=${call%:*}:signal=KILL:when=$number"
            want_status 137
            want_shown ''
            run run "$folder" < <(printf '%ssession 1\nSELECT * FROM kv;\n' "$kv_setup") >"$scratch/stdout"
            want_status 0
            for ((wanted = least; wanted <= most; wanted++)); do
                if [ "$wanted" -eq 0 ]; then
                    printf '%srows 0\n' "$kv_shown" >"$scratch/wanted"
                else
                    printf '%s%d, %d\nrows 1\n' "$kv_shown" "$wanted" "$wanted" >"$scratch/wanted"
                fi
                cmp -s "$scratch/stdout" "$scratch/wanted" && break
            done
            [ "$wanted" -le "$most" ] || differs "a later run finds other rows than those of block $least or $most"
            end_case "killed at ${call%:*} $number of ten blocks"
        done
    done
}

# Over a log file the questions for the size, each read, and the write and the sync that bring it to the disk before it is
# read fail in turn; the reads and that write are interrupted.
check_faults_of_reads() {
    local folder call
    for call in statx:1 statx:2 statx:3 pread64:1 pread64:2 pread64:3 pread64:4 pwrite64:1 fdatasync:1; do
        folder_with_row
        run_traced "$folder" "$three_lookups" "$folder/lane0.even" "inject=${call%:*}:error=EIO:when=${call#*:}"
        want_status 4
        want_shown "$disk_fault"
        want_hex "$folder/lane0.even" "$head_hex${row_hex}00"
        end_case "${call/:/ } fails"
        [[ "$call" == statx:* ]] && continue

        folder_with_row
        run_traced "$folder" "$three_lookups" "$folder/lane0.even" "inject=${call%:*}:error=EINTR:when=${call#*:}"
        want_status 0
        want_shown "$kv_shown"$'1, 10\nrows 1\nrows 0\nrows 0\n'
        end_case "${call/:/ } is interrupted"
    done
}

# The log file can't be opened, or its folder can't be synced.
check_faults_of_opening() {
    local folder word
    for word in openat:error=EACCES fsync:error=EIO; do
        folder_with_row
        if [ "${word%%:*}" = fsync ]; then
            run_traced "$folder" "$three_inserts" "$folder" "inject=$word"
        else
            run_traced "$folder" "$three_inserts" "$folder/lane0.even" "inject=$word"
        fi
        want_status 4
        want_shown "$disk_fault"
        want_hex "$folder/lane0.even" "$head_hex${row_hex}00"
        end_case "${word%%:*} fails"
    done
}

# Standard input fails at its first read and at its end, and is interrupted there.
check_faults_of_input() {
    local folder number
    for number in 1 2; do
        folder_with_row
        run_traced "$folder" "$three_inserts" "$scratch/script" "inject=read:error=EIO:when=$number"
        want_status 5
        want_shown $'fault SOURCE\n'
        want_hex "$folder/lane0.even" "$head_hex${row_hex}00"
        end_case "read $number fails"

        new_folder
        run_traced "$folder" "$three_inserts" "$scratch/script" "inject=read:error=EINTR:when=$number"
        want_status 0
        want_shown "$kv_shown"$'ok 1\nok 1\nok 1\n'
        end_case "read $number is interrupted"
    done
}

# Standard output, which a long text takes three writes for, fails at each of them, and is interrupted there.
check_faults_of_output() {
    local folder number script
    script="$kv_setup"'session 1'$'\n'"$(yes 'SELECT * FROM kv WHERE id = 1;' | head -n 1500)"$'\n'
    { printf '%s' "$kv_shown"; yes 'rows 0' | head -n 1500; } >"$scratch/whole"
    for number in 1 2 3; do
        new_folder
        run_traced "$folder" "$script" "$scratch/stdout" "inject=write:error=EIO:when=$number"
        want_status 6
        head -c "$(stat -c %s "$scratch/stdout")" "$scratch/whole" >"$scratch/wanted"
        want_output "$scratch/wanted"
        [ "$(stat -c %s "$scratch/stdout")" -lt 10519 ] || differs 'all of it was printed'
        end_case "write $number fails"

        new_folder
        run_traced "$folder" "$script" "$scratch/stdout" "inject=write:error=EINTR:when=$number"
        want_status 0
        want_output "$scratch/whole"
        end_case "write $number is interrupted"
    done
}

# An insert into a folder with no log file, and a look-up in a log: these calls are made, and no others.
check_calls() {
    local folder calls=openat,flock,statx,pread64,pwrite64,fdatasync,fsync,ftruncate,close
    new_folder
    run_traced "$folder" "$(cat "$checks/cases/row/script")"$'\n' "$folder/lane0.even" "trace=$calls"
    want_status 0
    cmp -s <(calls_on_log) <(printf '%s\n' openat flock statx fdatasync statx 'pwrite64 1 0' fdatasync 'pwrite64 11 1' fdatasync \
        'pwrite64 1 0' fdatasync 'pwrite64 25 12' fdatasync 'pwrite64 1 11' fdatasync close) ||
        differs "the calls are $(calls_on_log | tr '\n' ';')"
    end_case 'calls of an insert'

    folder_with_row
    run_traced "$folder" "$three_lookups" "$folder/lane0.even" "trace=$calls"
    want_status 0
    cmp -s <(calls_on_log) <(printf '%s\n' openat flock statx 'pread64 1 0' 'pread64 37 0' 'pwrite64 1 0' fdatasync statx 'pread64 11 0' \
        'pread64 26 11' statx close) ||
        differs "the calls are $(calls_on_log | tr '\n' ';')"
    end_case 'calls of a look-up'
}

check_faults() {
    if ! can_trace; then
        skip_cases 130 'the cases of checks/faults.bash need strace'
        return
    fi
    check_faults_of_changes
    check_kills_of_blocks
    check_faults_of_reads
    check_faults_of_opening
    check_faults_of_input
    check_faults_of_output
    check_calls
}
