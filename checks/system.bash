# What the system may do to a run besides failing a call: another process at work, calls that take a part, streams that
# are closed, a disk that lost what it was told to keep.

readonly one_insert="$kv_setup"$'session 1\nINSERT INTO kv VALUES (2, 20);\n'

# While a run waits for its script, a second one over the same folder is refused, and changes nothing.
check_two_at_once() {
    local folder pid turns
    folder_with_row
    mkfifo "$scratch/slow_script"
    "$ptime" run "$folder" <"$scratch/slow_script" >"$scratch/first_stdout" 2>/dev/null &
    pid=$!
    exec 7>"$scratch/slow_script"
    for ((turns = 0; turns < 100; turns++)); do
        ls -l "/proc/$pid/fd" 2>/dev/null | grep -q 'lane0.even$' && break
        sleep 0.05
    done
    step "$folder" 4 "$one_insert" "$disk_fault"
    want_hex "$folder/lane0.even" "$head_hex${row_hex}00"
    printf '%s' "$one_insert" >&7
    exec 7>&-
    wait "$pid" || differs 'the first run fails'
    cmp -s "$scratch/first_stdout" <(printf '%sok 1\n' "$kv_shown") || differs 'the first run has other replies'
    rm "$scratch/slow_script"
    end_case two_at_once
}

# With standard output closed, and nothing to hold its number with, no file is made that the replies could get into.
check_unheld_stream() {
    local folder
    if ! can_trace; then
        skip_cases 1 'unheld_stream needs strace'
        return
    fi
    new_folder
    printf '%s' "$one_insert" >"$scratch/script"
    strace -f -qq -o "$scratch/calls" -P /dev/null -e inject=openat:error=ENOENT \
        bash -c 'exec "$0" run "$1" >&-' "$program" "$folder" <"$scratch/script" 2>/dev/null
    status=$?
    want_status 4
    [ -e "$folder/lane0.even" ] && differs 'a log file was made'
    folder_with_row
    strace -f -qq -o "$scratch/calls" -P /dev/null -e inject=openat:error=ENOENT \
        bash -c 'exec "$0" run "$1"' "$program" "$folder" <"$scratch/script" >"$scratch/stdout" 2>/dev/null
    status=$?
    want_status 0
    want_shown "$kv_shown"$'ok 1\n'
    end_case unheld_stream
}

# A script that comes in pieces is read to its end.
check_input_in_pieces() {
    local folder
    new_folder
    run run "$folder" < <(
        printf '%ssession 1\nINSE' "$kv_setup"
        sleep 0.2
        printf 'RT INTO kv VALUES (1, 10);\nSELECT * FROM kv WHERE id = 1'
        sleep 0.2
        printf ';\n'
    ) >"$scratch/stdout"
    want_status 0
    want_shown "$kv_shown"$'ok 1\n1, 10\nrows 1\n'
    end_case input_in_pieces
}

# A file may have 1,024 bytes: 40 rows fit, and of the frame of the next one 12 bytes are written before a write fails.
check_short_write_of_log() {
    local folder i
    new_folder
    { printf '%ssession 1\n' "$kv_setup"; seq 42 | sed 's/.*/INSERT INTO kv VALUES (&, -&);/'; } >"$scratch/script"
    (trap '' XFSZ; ulimit -f 1; exec "$program" run "$folder") <"$scratch/script" 2>"$scratch/stderr" | cat >"$scratch/stdout"
    status="${PIPESTATUS[0]}"
    want_status 4
    { printf '%s' "$kv_shown"; yes 'ok 1' | head -n 40; echo stopped; echo stopped; printf '%s' "$disk_fault"; } >"$scratch/wanted"
    want_output "$scratch/wanted"
    { printf '%ssession 1\n' "$kv_setup"; seq 42 | sed 's/.*/SELECT * FROM kv WHERE id = &;/'; } >"$scratch/script"
    { printf '%s' "$kv_shown"; seq 40 | sed 's/.*/&, -&\nrows 1/'; echo 'rows 0'; echo 'rows 0'; } >"$scratch/wanted"
    run run "$folder" <"$scratch/script" >"$scratch/stdout"
    want_status 0
    want_output "$scratch/wanted"
    end_case short_write_of_log
}

# Standard output is a file that may have 1,024 bytes: the text is printed up to there, and the status says so.
check_short_write_of_output() {
    local folder
    new_folder
    { printf '%ssession 1\n' "$kv_setup"; yes 'SELECT * FROM kv WHERE id = 1;' | head -n 1500; } >"$scratch/script"
    { printf '%s' "$kv_shown"; yes 'rows 0' | head -n 1500; } | head -c 1024 >"$scratch/wanted"
    (trap '' XFSZ; ulimit -f 1; exec "$program" run "$folder") <"$scratch/script" >"$scratch/stdout" 2>"$scratch/stderr"
    status=$?
    want_status 6
    want_output "$scratch/wanted"
    end_case short_write_of_output
}

# The calls on the log file but for those that open, measure and close it are these.
want_transfers() {
    local calls
    calls="$(calls_on_log | grep -v 'openat\|flock\|statx\|close')"
    [ "$calls" = "$(printf '%s\n' "$@")" ] || differs "the calls are $(tr '\n' ';' <<<"$calls")"
}

# A read, a write or a print that takes a part is followed by one for the rest. strace doesn't make the call, and says
# that so many bytes were taken: those of the read are zeros, so the gate of the row counts as closed.
check_short_calls() {
    local folder calls=openat,statx,pread64,pwrite64,fdatasync,close
    if ! can_trace; then
        skip_cases 3 'short_calls needs strace'
        return
    fi
    folder_with_row
    run_traced "$folder" "$one_insert" "$folder/lane0.even" "trace=$calls" -e inject=pwrite64:retval=5:when=2
    want_transfers 'pread64 1 0' 'pread64 37 0' 'pwrite64 1 0' fdatasync 'pread64 11 0' \
        'pread64 26 11' 'pwrite64 25 37' 'pwrite64 20 42' fdatasync 'pwrite64 1 36' fdatasync
    end_case 'short write'

    folder_with_row
    run_traced "$folder" "$one_insert" "$folder/lane0.even" "trace=$calls" -e inject=pread64:retval=3:when=4
    want_transfers 'pread64 1 0' 'pread64 37 0' 'pwrite64 1 0' fdatasync 'pread64 11 0' \
        'pread64 26 11' 'pread64 23 14' 'pwrite64 25 12' fdatasync 'pwrite64 1 11' fdatasync
    want_status 0
    end_case 'short read'

    new_folder
    run_traced "$folder" "$three_inserts" "$scratch/stdout" trace=write -e inject=write:retval=9:when=1
    want_status 0
    want_shown $'session 1\nok 1\nok 1\nok 1\n'
    end_case 'short print'
}

# A log with a row, whose file is 200,000,000 bytes long, a hole behind the row: an opening fills nothing of it, and a script
# that is none leads to no write and no sync.
check_sparse_log() {
    local folder blocks
    folder_with_row
    truncate -s 200000000 "$folder/lane0.even"
    sync "$folder/lane0.even"
    blocks="$(stat -c %b "$folder/lane0.even")"
    step "$folder" 0 "$three_lookups" "$kv_shown"$'1, 10\nrows 1\nrows 0\nrows 0\n'
    [ "$(stat -c %b "$folder/lane0.even")" -le "$blocks" ] || differs "the hole is filled"
    end_case 'sparse_log looked up'

    if ! can_trace; then
        skip_cases 1 'sparse_log needs strace'
        return
    fi
    run_traced "$folder" $'session 2\n' "$folder/lane0.even" trace=pwrite64,write,fdatasync,ftruncate
    want_status 7
    [ -s "$scratch/calls" ] && differs "the calls are $(calls_on_log | tr '\n' ';')"
    end_case 'sparse_log and no script'
}

# The folder is synced once the file is made in it, and before a reply is printed.
check_folder_is_kept() {
    local folder
    if ! can_trace; then
        skip_cases 1 'folder_is_kept needs strace'
        return
    fi
    new_folder
    run_traced "$folder" "$one_insert" "$folder" 'trace=openat,fsync,pwrite64' -P "$folder/lane0.even"
    cmp -s <(sed -E 's/^[0-9]+ +//; s/\(.*//' "$scratch/calls" | head -4) <(printf '%s\n' openat openat fsync pwrite64) ||
        differs "the calls are $(sed -E 's/^[0-9]+ +//' "$scratch/calls" | head -5 | tr '\n' ';')"
    grep -q 'openat.*lane0.even' <(sed -n 2p "$scratch/calls") || differs 'the folder is synced before the file is made'
    end_case folder_is_kept
}

# Says how large a loop device is, in bytes: 0 stands for all of the file below it.
limit_device() {
    python3 - "$1" "$2" <<'END'
import fcntl, struct, sys

SET_STATUS64, GET_STATUS64, INFO_LEN, SIZE_LIMIT_AT = 0x4C04, 0x4C05, 232, 32
with open(sys.argv[1], "rb") as device:
    info = bytearray(fcntl.ioctl(device, GET_STATUS64, bytes(INFO_LEN)))
    struct.pack_into("<Q", info, SIZE_LIMIT_AT, int(sys.argv[2]))
    fcntl.ioctl(device, SET_STATUS64, bytes(info))
END
}

can_lose_writes() {
    [ "$(id -u)" -eq 0 ] && can_trace && command -v losetup mkfs.ext4 filefrag python3 >/dev/null &&
        losetup -f >/dev/null 2>&1
}

unmount_disk() {
    umount "$scratch/disk" 2>/dev/null
    [ -n "$device" ] && losetup -d "$device" 2>/dev/null
    device=
}

# Stops the program behind its third write of the log file, which opens a gate; then the part of the disk where the file
# lies is gone, and the sync fails.
insert_and_lose_gate() {
    local block tracer pid turns
    block="$(filefrag -v -b4096 "$scratch/disk/lane0.even" | awk '$1 == "0:" { print $4 + 0 }')"
    printf '%s' "$one_insert" >"$scratch/script"
    strace -f -qq -o "$scratch/calls" -P "$scratch/disk/lane0.even" -e inject=pwrite64:signal=STOP:when=3 \
        "$program" run "$scratch/disk" <"$scratch/script" >"$scratch/stdout" 2>/dev/null &
    tracer=$!
    for ((turns = 0; turns < 200; turns++)); do
        pid="$(pgrep -P "$tracer")"
        [ -n "$pid" ] && grep -q '^State:.*[Tt]' "/proc/$pid/status" && grep -q 'stopped by SIGSTOP' "$scratch/calls" && break
        sleep 0.05
    done
    limit_device "$device" $((block * 4096))
    kill -CONT "$pid"
    wait "$tracer"
    status=$?
    limit_device "$device" 0
}

# A sync fails, so a gate never reaches the disk, while the system gives it to whoever reads. The next run has to bring it
# there: what that run acknowledges behind the gate would else be lost with it.
check_lost_sync() {
    if ! can_lose_writes; then
        skip_cases 1 'lost_sync needs root, strace, python3, loop devices and ext4'
        return
    fi
    mkdir "$scratch/disk"
    truncate -s 16M "$scratch/disk.img"
    if ! mkfs.ext4 -q -b 4096 -O ^has_journal "$scratch/disk.img" || ! device="$(losetup -f --show "$scratch/disk.img")" ||
        ! mount "$device" "$scratch/disk"; then
        unmount_disk
        skip_cases 1 'lost_sync needs a loop device that can be mounted'
        return
    fi
    step "$scratch/disk" 0 "$kv_setup"$'session 1\nINSERT INTO kv VALUES (1, 10);\n' "$kv_shown"$'ok 1\n'
    sync
    insert_and_lose_gate
    want_status 4
    want_shown "$kv_shown"$'stopped\nfault DISK lane0.even\n'
    step "$scratch/disk" 0 "$kv_setup"$'session 1\nINSERT INTO kv VALUES (3, 30);\n' "$kv_shown"$'ok 1\n'
    umount "$scratch/disk"
    mount "$device" "$scratch/disk"
    step "$scratch/disk" 0 "$three_lookups" "$kv_shown"$'1, 10\nrows 1\n2, 20\nrows 1\n3, 30\nrows 1\n'
    unmount_disk
    end_case lost_sync
}
