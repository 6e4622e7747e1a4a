/* SQLite: SQLITE_CONFIG_MALLOC hands it all calls for memory. A database in memory, with an index, updates and sorts. */
#include "harness.h"

#include <sqlite3.h>

const char program_name[] = "sqlite";

const char *program_version(void) { return sqlite3_libversion(); }

static void *take(int n) { return hook_malloc((size_t)n); }
static void *change(void *p, int n) { return hook_realloc(p, (size_t)n); }
static int size_of(void *p) { return (int)hook_usable_size(p); }
static int round_up(int n) { return (n + 7) / 8 * 8; }
static int begin(void *unused) { return (void)unused, SQLITE_OK; }
static void end(void *unused) { (void)unused; }

static const char *const steps[] = {
    "create table person(id integer primary key, name text, city int, note text)",
    "insert into person with recursive n(i) as (select 1 union all select i + 1 from n where i < 6000) "
    "select i, 'name ' || (i * 7919 % 6007), i * 31 % 97, hex(i * 2654435761 % 4294967296) from n",
    "create index by_city on person(city, name)",
    "select count(*), sum(length(note)), max(name) from person",
    "select city, count(*), group_concat(id) from (select * from person where city < 4 order by city, name limit 200) group by city",
    "update person set note = note || note || note where city % 5 = 0",
    "delete from person where id % 3 = 0",
    "create table town(city int primary key, people int) without rowid",
    "insert into town select city, count(*) from person group by city",
    "select t.people, p.name from town t join person p using(city) where p.id % 400 = 1 order by p.name desc",
    "begin; update person set name = upper(name); rollback",
    "select city, rank() over (order by people desc, city) from town order by 2 limit 6",
    "select json_group_array(json_object('id', id, 'name', name)) from (select * from person order by id limit 20)",
    "vacuum",
    "select name from person where name like '%77' order by length(note), id limit 9",
};

static int say_row(void *unused, int n, char **values, char **names) {
    (void)unused, (void)names;
    for (int k = 0; k < n; k++) say("%.900s%s", values[k] != NULL ? values[k] : "null", k + 1 < n ? "|" : "\n");
    return 0;
}

bool program_work(const char *file) {
    (void)file;
    static const sqlite3_mem_methods methods = {take, hook_free, change, size_of, round_up, begin, end, NULL};
    sqlite3 *database = NULL;
    int answer = sqlite3_config(SQLITE_CONFIG_MALLOC, &methods);
    if (answer == SQLITE_OK) answer = sqlite3_config(SQLITE_CONFIG_SINGLETHREAD);
    if (answer == SQLITE_OK) answer = sqlite3_open(":memory:", &database);
    for (size_t k = 0; answer == SQLITE_OK && k < sizeof steps / sizeof *steps; k++)
        answer = sqlite3_exec(database, steps[k], say_row, NULL, NULL);
    if (answer != SQLITE_OK) say("%s\n", sqlite3_errstr(answer));
    const int closed = sqlite3_close(database), ended = sqlite3_shutdown();
    return answer == SQLITE_OK && closed == SQLITE_OK && ended == SQLITE_OK;
}
