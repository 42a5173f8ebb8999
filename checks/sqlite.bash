# The same scripts through ptime and through sqlite3: both have to show the same rows.

readonly scripts_compared=300

# A script that follows from a number: two tables, blocks and statements that stand alone. For ptime, or with `sqlite` as
# the second word, what says the same there: totals of no rows are 0, and texts are shown in quotes.
made_script() {
    awk -v seed="$1" -v other="$2" '
    function below(n) {
        x = (75 * x + 74) % 65537
        return x % n
    }
    function key() { return below(12) - 4 }
    function number() { return below(200) - 100 }
    function text(    i, s) {
        s = ""
        for (i = below(4); i > 0; i--)
            s = s substr("abcXYZ09 ;-", below(11) + 1, 1)
        if (below(4) == 0) s = s "\047\047"
        if (below(6) == 0) s = s "é"
        return "\047" s "\047"
    }
    function sign() { return substr("= <><=>=< > ", 2 * below(6) + 1, 2) }
    function condition(table,    k) {
        k = below(table == "a" ? 3 : 4)
        if (k == 3) return "t " sign() " " text()
        if (k == 2) return "n " sign() " " number()
        return "id " sign() " " key()
    }
    function where(table,    k, s) {
        k = below(3)
        if (k == 0) return ""
        s = " WHERE " condition(table)
        if (k == 2) s = s " AND " condition(table)
        return s
    }
    function row(table) {
        if (table == "a") return "(" key() ", " number() ")"
        return "(" key() ", " text() ", " number() ")"
    }
    function columns(table) {
        if (table == "a" || !other) return "*"
        return "id, quote(t), n"
    }
    function insert(table,    i, s) {
        s = "INSERT INTO " table " VALUES " row(table)
        for (i = below(3); i > 0; i--) s = s ", " row(table)
        return s
    }
    function change(table) {
        if (table == "b" && below(2)) return "UPDATE b SET t = " text() ", n = n + 1" where(table)
        return "UPDATE " table " SET n = n - " (below(9)) " + id" where(table)
    }
    function look(table,    k) {
        k = below(4)
        if (k == 0) return "SELECT COUNT(*), " (other ? "IFNULL(SUM(n), 0)" : "SUM(n)") " FROM " table where(table)
        if (k == 1) return "SELECT " columns(table) " FROM " table where(table) " ORDER BY id DESC LIMIT " below(5)
        if (k == 2) return "SELECT n, id FROM " table where(table) " ORDER BY id"
        return "SELECT " columns(table) " FROM " table where(table) " ORDER BY id"
    }
    function statement(    table, k) {
        table = below(2) ? "a" : "b"
        k = below(6)
        if (k <= 1) return insert(table)
        if (k == 2) return change(table)
        if (k == 3) return "DELETE FROM " table where(table)
        return look(table)
    }
    function say(s) { print s ";" }
    BEGIN {
        x = seed
        if (!other) print "setup"
        say("CREATE TABLE a (id " (other ? "INTEGER" : "INT") " PRIMARY KEY, n INT)")
        say("CREATE TABLE b (id " (other ? "INTEGER" : "INT") " PRIMARY KEY, t TEXT(20), n INT)")
        for (session = 1; session <= 3; session++) {
            if (!other) print "session " session
            for (block = 0; block < 6; block++) {
                if (below(2)) {
                    say(statement())
                    continue
                }
                say("BEGIN")
                for (i = below(5); i > 0; i--) say(statement())
                say(below(3) ? "COMMIT" : "ROLLBACK")
            }
        }
        say("SELECT " columns("a") " FROM a ORDER BY id")
        say("SELECT " columns("b") " FROM b ORDER BY id")
    }'
}

# The rows in what ptime prints.
rows_shown() {
    grep -v -E '^(setup|session [0-9]+|ok( [0-9]+)?|refused .*|rows [0-9]+)$' "$1"
}

check_same_as_sqlite() {
    local number folder="$fast/same_as_sqlite"
    if ! command -v sqlite3 >/dev/null; then
        skip_cases 1 'same_as_sqlite needs sqlite3'
        return
    fi
    for ((number = 1; number <= scripts_compared; number++)); do
        rm -rf "$folder"
        mkdir "$folder"
        run run "$folder" < <(made_script "$number" '') >"$scratch/stdout"
        want_status 0
        made_script "$number" sqlite | sqlite3 -separator ', ' :memory: >"$scratch/wanted" 2>/dev/null
        cmp -s <(rows_shown "$scratch/stdout") "$scratch/wanted" || differs "script $number has other rows"
    done
    rm -rf "$folder"
    end_case same_as_sqlite
}
