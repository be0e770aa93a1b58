// Runs the statements of the standard input, which are separated by empty lines, and prints rows and errors.
#include "no_files.h"
#include <stdio.h>
#include <stdlib.h>

static int row(void *unused, int count, char **values, char **names) {
    (void)unused, (void)names;
    for (int i = 0; i < count; i++) printf("%s%s", i ? "|" : "", values[i] ? values[i] : "NULL");
    return printf("\n") < 0;
}

int main(void) {
    sqlite3 *base;
    static char text[4096], line[512];
    if (sqlite3_open(":memory:", &base) != SQLITE_OK) return 1;
    printf("%s\n", sqlite3_libversion());
    for (int goes_on = 1; goes_on;) {
        text[0] = 0;
        while ((goes_on = fgets(line, sizeof line, stdin) != NULL) && line[0] != '\n' && strlen(text) + strlen(line) < sizeof text)
            strcat(text, line);
        char *error = NULL;
        if (sqlite3_exec(base, text, row, NULL, &error) != SQLITE_OK) printf("error: %s\n", error);
        sqlite3_free(error);
    }
    return sqlite3_close(base) != SQLITE_OK;
}
