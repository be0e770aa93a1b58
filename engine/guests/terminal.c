// A program of WASI preview 1, without a library. Its first argument says what it does; what goes wrong it prints as a number.
typedef unsigned int u32;
typedef unsigned long long u64;

#define WASI(name) __attribute__((import_module("wasi_snapshot_preview1"), import_name(#name))) int name
WASI(args_sizes_get)(u32 *count, u32 *size);
WASI(args_get)(char **places, char *texts);
WASI(environ_sizes_get)(u32 *count, u32 *size);
WASI(environ_get)(char **places, char *texts);
WASI(clock_time_get)(u32 clock, u64 precision, u64 *time);
WASI(fd_close)(u32 fd);
WASI(fd_fdstat_get)(u32 fd, void *status);
WASI(fd_prestat_dir_name)(u32 fd, char *name, u32 size);
WASI(fd_read)(u32 fd, const void *list, u32 count, u32 *size);
WASI(fd_seek)(u32 fd, long long offset, u32 whence, u64 *place);
WASI(fd_write)(u32 fd, const void *list, u32 count, u32 *size);
WASI(path_open)(u32 fd, u32 follow, const char *path, u32 size, u32 flags, u64 rights, u64 passed, u32 mode, u32 *out);
WASI(path_unlink_file)(u32 fd, const char *path, u32 size);
WASI(random_get)(void *bytes, u32 size);
__attribute__((import_module("wasi_snapshot_preview1"), import_name("proc_exit"), noreturn)) void proc_exit(int status);

static char texts[4096];
static char *words[64];

static u32 length(const char *text) {
    u32 size = 0;
    while (text[size]) size++;
    return size;
}

static int is(const char *one, const char *other) {
    while (*one && *one == *other) one++, other++;
    return *one == *other;
}

static void put(u32 fd, const char *bytes, u32 size) {
    struct { const char *bytes; u32 size; } list[2] = {{bytes, size / 2}, {bytes + size / 2, size - size / 2}};
    u32 written = 0;
    if (fd_write(fd, list, 2, &written) || written != size) __builtin_trap();
}

static void line(const char *text) {
    put(1, text, length(text));
    put(1, "\n", 1);
}

static void number(u64 value) {
    char digits[24];
    u32 at = sizeof digits;
    digits[--at] = 0;
    do digits[--at] = '0' + value % 10;
    while (value /= 10);
    line(digits + at);
}

static void list_texts(int is_environment) {
    u32 count = 0, size = 0;
    if (is_environment ? environ_sizes_get(&count, &size) : args_sizes_get(&count, &size)) __builtin_trap();
    if (count > 64 || size > sizeof texts) __builtin_trap();
    if (is_environment ? environ_get(words, texts) : args_get(words, texts)) __builtin_trap();
    for (u32 i = 0; i < count; i++) line(words[i]);
}

static int copy(u32 from) {
    static char bytes[100];
    struct { char *bytes; u32 size; } list = {bytes, sizeof bytes};
    u32 size = 0;
    int error;
    while (!(error = fd_read(from, &list, 1, &size)) && size > 0) put(1, bytes, size);
    return error;
}

static int opened(u32 folder, const char *path, u32 flags, u64 rights, u32 *out) {
    return path_open(folder, 1, path, length(path), flags, rights, 0, 0, out);
}

// Opens a path in the first folder, prints what is there, and after that its last three bytes.
static void read_file(const char *path) {
    u32 fd;
    u64 place = 0;
    int error = opened(3, path, 0, 2, &fd);
    if (!error) error = copy(fd);
    if (!error) error = fd_seek(fd, -3, 2, &place);
    if (!error) number(place), error = copy(fd);
    if (!error) error = fd_close(fd);
    if (error) number(error);
}

// Prints the errors of what a program may not do.
static void misuse(void) {
    static char bytes[8];
    u32 out;
    struct { const char *bytes; u32 size; } beyond = {(const char *)0xfffffff0, 100};
    number(opened(3, "a.txt", 1, 2, &out));
    number(opened(3, "a.txt", 0, 64, &out));
    number(path_unlink_file(3, "a.txt", 5));
    number(fd_write(0, &beyond, 1, &out));
    number(fd_write(1, &beyond, 1, &out));
    number(fd_write(1, &beyond, 2000, &out));
    number(fd_write(9, &beyond, 1, &out));
    number(fd_close(9));
    number(random_get((void *)0xfffffff0, 100));
    number(fd_prestat_dir_name(1, bytes, 8));
    number(opened(1, "a.txt", 0, 2, &out));
}

// Two functions that are open when the program traps.
static __attribute__((noinline)) void stop(void) {
    put(2, "stopping\n", 9);
    __builtin_trap();
}

static __attribute__((noinline)) void stop_later(void) {
    stop();
    put(2, "not stopped\n", 12);
}

__attribute__((export_name("_start"))) void start(void) {
    u32 count, size;
    u64 time[2];
    unsigned char bytes[5] = {0};
    if (args_sizes_get(&count, &size) || size > sizeof texts || args_get(words, texts)) __builtin_trap();
    const char *what = count > 1 ? words[1] : "args";
    if (is(what, "args")) list_texts(0), list_texts(1);
    if (is(what, "echo")) copy(0);
    if (is(what, "read")) read_file(words[2]);
    if (is(what, "misuse")) misuse();
    if (is(what, "time")) {
        for (int i = 0; i < 2; i++) clock_time_get(i, 0, &time[i]);
        number(time[0]), number(time[1]);
    }
    if (is(what, "random")) {
        random_get(bytes, 5);
        for (int i = 0; i < 5; i++) number(bytes[i]);
    }
    if (is(what, "fill")) while (1) random_get(texts, sizeof texts);
    if (is(what, "error")) put(2, "error\n", 6);
    if (is(what, "exit")) proc_exit(words[2][0] - '0');
    if (is(what, "stop")) stop_later();
}
