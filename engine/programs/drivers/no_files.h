// What SQLite asks of a system: names of files, random bytes, pauses and the time. There is no file here.
#include "sqlite3.h"
#include <string.h>

static int full_path(sqlite3_vfs *it, const char *name, int size, char *out) {
    (void)it;
    return sqlite3_snprintf(size, out, "%s", name) == NULL;
}

static int open_none(sqlite3_vfs *it, const char *name, sqlite3_file *file, int flags, int *out) {
    (void)it, (void)name, (void)flags, (void)out;
    file->pMethods = NULL;
    return SQLITE_CANTOPEN;
}

static int random_bytes(sqlite3_vfs *it, int size, char *out) {
    (void)it;
    memset(out, 7, size);
    return size;
}

static int pause(sqlite3_vfs *it, int time) {
    (void)it;
    return time;
}

static int now(sqlite3_vfs *it, double *out) {
    (void)it, (void)out;
    return SQLITE_ERROR;
}

static int now_in_milliseconds(sqlite3_vfs *it, sqlite3_int64 *out) {
    (void)it;
    *out = 0;
    return SQLITE_OK;
}

int sqlite3_os_init(void) {
    static sqlite3_vfs none = {
        .iVersion = 2, .szOsFile = sizeof(sqlite3_file), .mxPathname = 64, .zName = "none", .xOpen = open_none,
        .xFullPathname = full_path, .xRandomness = random_bytes, .xSleep = pause, .xCurrentTime = now,
        .xCurrentTimeInt64 = now_in_milliseconds,
    };
    return sqlite3_vfs_register(&none, 1);
}

int sqlite3_os_end(void) {
    return SQLITE_OK;
}
