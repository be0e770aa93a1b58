// Texts: a parser of JSON, and regular expressions.
#include "guest.h"

// ---- json
// Reads a text in JSON to a tree of values, writes the tree again, and compares the two texts. Then texts with one byte changed are
// read, of which most are refused.
enum { NIL, NO, YES, NUMBER, STRING, LIST, MAP };
typedef struct value { u32 kind, len; i64 number; const u8 *text, *key; u32 key_len; struct value *first, *after; } value;
static u8 *text, *out, *arena;
static const u8 *at, *end;
static u32 used, wrote;

static void put(u8 c) { text[used++] = c; }
static void put_word(const char *s) { while (*s) put((u8)*s++); }
static void put_string(void) {
    put('"');
    for (u32 len = next() % 12; len--;) {
        u32 c = 32 + next() % 90;
        if (c == '"' || c == '\\') put('\\');
        put((u8)c);
    }
    put('"');
}
static void put_number(void) {
    u64 n = next();
    u8 digits[20]; u32 count = 0;
    if (next() & 1) put('-'), n++;
    do digits[count++] = (u8)('0' + n % 10); while (n /= 10);
    while (count) put(digits[--count]);
}
static void put_value(u32 depth) {
    u32 kind = next() % 8;
    if (depth > 6 && kind > 4) kind = 3;
    if (kind < 3) put_word(kind == 0 ? "null" : kind == 1 ? "true" : "false");
    else if (kind == 3) put_number();
    else if (kind == 4) put_string();
    else {
        u32 is_map = kind == 7;
        put(is_map ? '{' : '[');
        for (u32 i = 0, len = next() % 9; i < len; i++) {
            if (i) put(',');
            if (is_map) put_string(), put(':');
            put_value(depth + 1);
        }
        put(is_map ? '}' : ']');
    }
}

static value *fresh(u32 kind) {
    value *it = (value *)arena;
    arena += sizeof(value);
    *it = (value){.kind = kind};
    return it;
}
static u32 taken(const char *word) {
    const u8 *p = at;
    while (*word) if (p == end || *p++ != (u8)*word++) return 0;
    at = p;
    return 1;
}
static u32 string(const u8 **from, u32 *len) {
    if (!taken("\"")) return 0;
    for (*from = at; at < end && *at != '"'; at++)
        if (*at < 32 || (*at == '\\' && ++at == end)) return 0;
    *len = (u32)(at - *from);
    return taken("\"");
}
static NOINLINE value *parse(u32 depth) {
    if (at == end || depth > 60) return 0;
    if (*at == '{' || *at == '[') {
        u32 is_map = *at++ == '{';
        value *it = fresh(is_map ? MAP : LIST), **last = &it->first;
        const char *close = is_map ? "}" : "]";
        if (taken(close)) return it;
        do {
            const u8 *key = 0; u32 len = 0;
            if (is_map && !(string(&key, &len) && taken(":"))) return 0;
            value *item = parse(depth + 1);
            if (!item) return 0;
            item->key = key; item->key_len = len; it->len++;
            *last = item; last = &item->after;
        } while (taken(","));
        return taken(close) ? it : 0;
    }
    if (*at == '"') {
        value *it = fresh(STRING);
        return string(&it->text, &it->len) ? it : 0;
    }
    if (*at == '-' || (*at >= '0' && *at <= '9')) {
        value *it = fresh(NUMBER);
        u32 is_negative = taken("-"), digits = 0;
        for (; at < end && *at >= '0' && *at <= '9'; at++, digits++) it->number = it->number * 10 + (*at - '0');
        if (is_negative) it->number = -it->number;
        return digits ? it : 0;
    }
    return taken("null") ? fresh(NIL) : taken("true") ? fresh(YES) : taken("false") ? fresh(NO) : 0;
}

static void write_bytes(const u8 *p, u32 len) { __builtin_memcpy(out + wrote, p, len); wrote += len; }
static void write_string(const u8 *p, u32 len) { out[wrote++] = '"'; write_bytes(p, len); out[wrote++] = '"'; }
static NOINLINE void write(const value *it) {
    if (it->key) write_string(it->key, it->key_len), out[wrote++] = ':';
    if (it->kind < NUMBER) write_bytes((const u8 *)(it->kind == NIL ? "null" : it->kind == YES ? "true" : "false"), it->kind == NO ? 5 : 4);
    else if (it->kind == NUMBER) {
        u64 n = (u64)(it->number < 0 ? -it->number : it->number);
        u8 digits[20]; u32 count = 0;
        if (it->number < 0) out[wrote++] = '-';
        do digits[count++] = (u8)('0' + n % 10); while (n /= 10);
        while (count) out[wrote++] = digits[--count];
    } else if (it->kind == STRING) write_string(it->text, it->len);
    else {
        out[wrote++] = it->kind == MAP ? '{' : '[';
        for (const value *item = it->first; item; item = item->after) {
            if (item != it->first) out[wrote++] = ',';
            write(item);
        }
        out[wrote++] = it->kind == MAP ? '}' : ']';
    }
}

GUEST(json) {
    text = room((u32)n + 65536); out = room((u32)n + 65536);
    u8 *start = room((u32)n * 32 + (1 << 20));
    put('[');
    while (used < (u32)n) { if (used > 1) put(','); put_value(0); }
    put(']');
    at = text; end = text + used; arena = start;
    value *all = parse(0);
    if (!all || at != end) return -1;
    write(all);
    if (wrote != used) return -2;
    for (u32 i = 0; i < used; i++) if (text[i] != out[i]) return -3;
    u32 refused = 0;
    for (u32 i = 0; i < 32; i++) {
        u32 where = next() % used; u8 was = text[where];
        text[where] = (u8)(next() & 127);
        at = text; end = text + used; arena = start;
        if (!parse(0) || at != end) refused++;
        text[where] = was;
    }
    return (i64)(hashed(out, wrote) ^ (u64)refused << 32 ^ (u64)all->len);
}

// ---- regex
// Compiles regular expressions to programs that try all ways at once (Thompson's construction), and looks for the longest match at each
// place of a text.
enum { ONE, ANY, SET, SPLIT, JUMP, MATCH };
typedef struct { u32 code, x, y; } step;
static step program[256];
static u32 sets[16][4], set_count, count;
static const char *rest;
static void alternatives(void);

static u32 emit(u32 code, u32 x, u32 y) { program[count] = (step){code, x, y}; return count++; }
// Makes room for a step before those from `from` on.
static void insert(u32 from, u32 code, u32 x, u32 y) {
    for (u32 i = count++; i > from; i--) {
        program[i] = program[i - 1];
        if (program[i].code == SPLIT || program[i].code == JUMP) { program[i].x += program[i].x >= from; program[i].y += program[i].y >= from; }
    }
    program[from] = (step){code, x, y};
}
static void set(void) {
    u32 *bits = sets[set_count], is_not = *rest == '^';
    rest += is_not;
    for (u32 i = 0; i < 4; i++) bits[i] = 0;
    while (*rest != ']') {
        u32 from = (u8)*rest++, to = from;
        if (*rest == '-') to = (u8)rest[1], rest += 2;
        for (; from <= to; from++) bits[from >> 5] |= 1u << (from & 31);
    }
    rest++;
    if (is_not) for (u32 i = 0; i < 4; i++) bits[i] = ~bits[i];
    emit(SET, set_count++, 0);
}
static void repeated(void) {
    u32 from = count;
    char c = *rest++;
    if (c == '(') { alternatives(); rest++; }
    else if (c == '[') set();
    else if (c == '.') emit(ANY, 0, 0);
    else emit(ONE, (u8)(c == '\\' ? *rest++ : c), 0);
    for (; *rest == '*' || *rest == '+' || *rest == '?'; rest++) {
        if (*rest == '+') { emit(SPLIT, from, count + 1); continue; }
        insert(from, SPLIT, from + 1, count + 1 + (*rest == '*'));
        if (*rest == '*') emit(JUMP, from, 0);
    }
}
static void alternatives(void) {
    u32 from = count;
    while (*rest && *rest != ')' && *rest != '|') repeated();
    if (*rest != '|') return;
    rest++;
    insert(from, SPLIT, from + 1, count + 2);
    u32 jump = emit(JUMP, 0, 0);
    alternatives();
    program[jump].x = count;
}

static u32 ways[2][256], len[2], marks[256], mark;
static NOINLINE void add(u32 list, u32 pc) {
    if (marks[pc] == mark) return;
    marks[pc] = mark;
    if (program[pc].code == JUMP) add(list, program[pc].x);
    else if (program[pc].code == SPLIT) { add(list, program[pc].x); add(list, program[pc].y); }
    else ways[list][len[list]++] = pc;
}
// The end of the longest match that begins at `from`, or `from - 1`.
static NOINLINE u32 longest(const u8 *text, u32 from, u32 size) {
    u32 now = 0, best = from - 1;
    len[0] = 0; mark++;
    add(0, 0);
    for (u32 i = from; len[now]; i++, now ^= 1) {
        u32 then = now ^ 1, c = i < size ? text[i] : 0;
        len[then] = 0; mark++;
        for (u32 k = 0; k < len[now]; k++) {
            u32 pc = ways[now][k]; const step *it = program + pc;
            if (it->code == MATCH) best = i;
            else if (i < size && (it->code == ANY ? c != '\n' : it->code == ONE ? c == it->x : sets[it->x][c >> 5 & 3] >> (c & 31) & 1)) add(then, pc + 1);
        }
    }
    return best;
}
static const char *const patterns[] = {
    "abc", "a*b+c?", "(ab|ba)+", "[0-9]+\\.[0-9]+", "(a|b|c)*0", "[^ab\n]+", "x?.*1", "((a+b)|(b+a))+(0|1)*", "(a?)(a?)(a?)(a?)aaaa", "[a-c]([0-9]|\\.)*[a-c]",
};
GUEST(regex) {
    static const char letters[] = "aaabbbcc001 .\nx2";
    u8 *text = room((u32)n);
    for (i32 i = 0; i < n; i++) text[i] = (u8)letters[next() >> 9 & 15];
    u64 sum = 0;
    for (u32 p = 0; p < sizeof patterns / sizeof *patterns; p++) {
        rest = patterns[p]; count = set_count = 0;
        alternatives();
        emit(MATCH, 0, 0);
        for (u32 i = 0, found = 0; i < (u32)n; ) {
            u32 stop = longest(text, i, (u32)n);
            if (stop + 1 == i || stop == i) { i++; continue; }
            sum = (sum ^ stop) * 1099511628211ull + ++found;
            i = stop;
        }
    }
    return (i64)sum;
}
