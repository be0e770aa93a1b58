// Fills two tables with n rows in memory, and asks them: indices, joins, a recursive query, a window, and a check of all.
#include "driver.h"
#include "no_files.h"

static uint64_t sum;

static int row(void *unused, int count, char **values, char **names) {
    (void)unused, (void)names;
    for (int i = 0; i < count; i++) sum = sum_from(sum * 31, values[i] ? values[i] : "-", values[i] ? strlen(values[i]) : 1);
    return 0;
}

static void ask(sqlite3 *base, const char *text) {
    must(sqlite3_exec(base, text, row, NULL, NULL) == SQLITE_OK);
}

static void insert(sqlite3 *base, uint32_t n) {
    sqlite3_stmt *statement;
    uint64_t state = 19;
    must(sqlite3_prepare_v2(base, "insert into item values (?, ?, ?)", -1, &statement, NULL) == SQLITE_OK);
    for (uint32_t i = 0; i < n; i++) {
        char text[24];
        fill_text((uint8_t *)text, sizeof text, next_random(&state));
        must(sqlite3_bind_int(statement, 1, i) == SQLITE_OK);
        must(sqlite3_bind_int64(statement, 2, next_random(&state) % (n / 2 + 1)) == SQLITE_OK);
        must(sqlite3_bind_text(statement, 3, text, sizeof text, SQLITE_TRANSIENT) == SQLITE_OK);
        must(sqlite3_step(statement) == SQLITE_DONE && sqlite3_reset(statement) == SQLITE_OK);
    }
    must(sqlite3_finalize(statement) == SQLITE_OK);
}

uint64_t run(uint32_t n) {
    sqlite3 *base;
    sum = 0;
    must(sqlite3_open(":memory:", &base) == SQLITE_OK);
    ask(base, "create table item(id integer primary key, kind integer, text text); begin");
    insert(base, n);
    ask(base, "commit; create index kinds on item(kind, text); create table kind as select kind, count(*) as many from item group by kind");
    ask(base, "select count(*), min(many), max(many) from kind");
    ask(base, "select a.id, b.text from item a join item b on a.kind = b.kind and a.id < b.id where a.id % 7 = 0 order by b.text, a.id limit 200");
    ask(base, "with recursive step(i, x) as (select 1, 1 union all select i + 1, x * 1103515245 % 2147483648 + 12345 from step where i < 1000)"
              " select count(x), max(x) from step");
    ask(base, "select kind, upper(substr(text, 1, 5)), row_number() over (partition by kind order by id) from item where kind < 40 order by kind, id");
    ask(base, "update item set text = replace(text, 'e', 'E') where kind % 3 = 0; delete from item where id % 5 = 2");
    ask(base, "select count(*), min(text), max(text) from item; select group_concat(text, '|') from item where id < 50; pragma integrity_check");
    must(sqlite3_close(base) == SQLITE_OK);
    return sum;
}
