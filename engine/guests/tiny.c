#include "guest.h"
// A small language: `let`, `while`, `if`, functions and an array of numbers, compiled to the code of a stack machine, which is then run.
enum { PUSH, LOAD, SAVE, GET, PUT, ADD, SUB, MUL, DIV, REM, LESS, SAME, NOT, AND, GOTO, UNLESS, CALL, LEAVE, DROP, STOP };
typedef struct { u32 code; i32 value; } step;
static step program[4096];
static u32 count, is_bad;
static const char *at;
static i64 cells[1 << 16];
typedef struct { u32 hash, place, params; } name;
static name functions[32], locals[32];
static u32 function_count, local_count;
static void statement(void);
static void expression(void);

static u32 emit(u32 code, i32 value) { program[count] = (step){code, value}; return count++; }
static void spaces(void) { while (*at == ' ' || *at == '\n') at++; }
static u32 is_letter(char c) { return (c >= 'a' && c <= 'z') || c == '_'; }
static u32 taken(const char *word) {
    u32 len = 0;
    spaces();
    for (; word[len]; len++) if (at[len] != word[len]) return 0;
    if (is_letter(word[0]) && is_letter(at[len])) return 0;
    at += len;
    return 1;
}
static void wanted(const char *word) { if (!taken(word)) is_bad = 1; }
static u32 word(void) {
    u32 hash = 2166136261u;
    spaces();
    is_bad |= !is_letter(*at);
    while (is_letter(*at)) hash = (hash ^ (u8)*at++) * 16777619u;
    return hash;
}
static name *known(name *names, u32 len, u32 hash) {
    for (u32 i = 0; i < len; i++) if (names[i].hash == hash) return names + i;
    return 0;
}
static u32 local(u32 hash) {
    name *it = known(locals, local_count, hash);
    if (!it) { it = locals + local_count; *it = (name){hash, local_count++, 0}; }
    return it->place;
}
static void atom(void) {
    spaces();
    if (*at >= '0' && *at <= '9') {
        i32 value = 0;
        while (*at >= '0' && *at <= '9') value = value * 10 + (*at++ - '0');
        emit(PUSH, value);
    } else if (taken("(")) { expression(); wanted(")"); }
    else if (taken("!")) { atom(); emit(NOT, 0); }
    else if (taken("[")) { expression(); wanted("]"); emit(GET, 0); }
    else {
        u32 hash = word(), params = 0;
        name *callee = known(functions, function_count, hash);
        if (!taken("(")) { emit(LOAD, (i32)local(hash)); return; }
        while (!taken(")") && !is_bad) { expression(); params++; taken(","); }
        is_bad |= !callee || callee->params != params;
        if (!is_bad) emit(CALL, (i32)(callee - functions));
    }
}
static void product(void) {
    atom();
    for (;;) {
        u32 code = taken("*") ? MUL : taken("/") ? DIV : taken("%") ? REM : STOP;
        if (code == STOP || is_bad) return;
        atom();
        emit(code, 0);
    }
}
static void sum(void) {
    product();
    for (;;) {
        u32 code = taken("+") ? ADD : taken("-") ? SUB : STOP;
        if (code == STOP || is_bad) return;
        product();
        emit(code, 0);
    }
}
static void expression(void) {
    sum();
    for (;;) {
        u32 code = taken("<") ? LESS : taken("=") ? SAME : taken("&") ? AND : STOP;
        if (code == STOP || is_bad) return;
        sum();
        emit(code, 0);
    }
}
static void block(void) { wanted("{"); while (!taken("}") && !is_bad) statement(); }
static void statement(void) {
    if (taken("while")) {
        u32 from = count;
        expression();
        u32 out = emit(UNLESS, 0);
        block();
        emit(GOTO, (i32)from);
        program[out].value = (i32)count;
    } else if (taken("if")) {
        expression();
        u32 other = emit(UNLESS, 0);
        block();
        u32 out = emit(GOTO, 0);
        program[other].value = (i32)count;
        if (taken("else")) block();
        program[out].value = (i32)count;
    } else if (taken("return")) { expression(); wanted(";"); emit(LEAVE, 0); }
    else if (taken("let")) { u32 place = local(word()); wanted("="); expression(); wanted(";"); emit(SAVE, (i32)place); }
    else if (taken("put")) { wanted("["); expression(); wanted("]"); wanted("="); expression(); wanted(";"); emit(PUT, 0); }
    else { expression(); wanted(";"); emit(DROP, 0); }
}
static void compile(const char *text) {
    at = text; count = is_bad = function_count = 0;
    for (spaces(); *at && !is_bad; spaces()) {
        wanted("fn");
        name *it = functions + function_count++;
        it->hash = word(); it->place = count; local_count = 0;
        wanted("(");
        while (!taken(")") && !is_bad) { local(word()); taken(","); }
        it->params = local_count;
        block();
        emit(PUSH, 0); emit(LEAVE, 0);
    }
}

typedef struct { u32 next, base; } frame;
static i64 stack[4096];
static frame frames[512];
// What the last function of a program gives for an argument.
static NOINLINE i64 ran(i64 argument) {
    u32 top = 1, depth = 0, base = 0, pc = functions[function_count - 1].place;
    stack[0] = argument;
    for (u32 i = 1; i < 32; i++) stack[i] = 0;
    for (top = 32;;) {
        step it = program[pc++];
        i64 *b = stack + top - 1, *a = b - 1;
        switch (it.code) {
            case PUSH: stack[top++] = it.value; break;
            case LOAD: stack[top++] = stack[base + (u32)it.value]; break;
            case SAVE: stack[base + (u32)it.value] = *b; top--; break;
            case GET: *b = cells[*b & 65535]; break;
            case PUT: cells[*a & 65535] = *b; top -= 2; break;
            case ADD: *a += *b; top--; break;
            case SUB: *a -= *b; top--; break;
            case MUL: *a *= *b; top--; break;
            case DIV: *a /= *b; top--; break;
            case REM: *a %= *b; top--; break;
            case LESS: *a = *a < *b; top--; break;
            case SAME: *a = *a == *b; top--; break;
            case AND: *a = *a && *b; top--; break;
            case NOT: *b = !*b; break;
            case GOTO: pc = (u32)it.value; break;
            case UNLESS: if (!*b) pc = (u32)it.value; top--; break;
            case CALL: {
                name callee = functions[it.value];
                if (depth == 512 || top > 4000) return -7;
                frames[depth++] = (frame){pc, base};
                base = top - callee.params; pc = callee.place;
                for (u32 i = callee.params; i < 32; i++) stack[base + i] = 0;
                top = base + 32;
                break;
            }
            case LEAVE: {
                i64 value = *b;
                if (!depth) return value;
                frame back = frames[--depth];
                top = base; pc = back.next; base = back.base;
                stack[top++] = value;
                break;
            }
            case DROP: top--; break;
            default: return -8;
        }
    }
}
static const char *const programs[] = {
    "fn fib(n) { if n < 2 { return n; } return fib(n - 1) + fib(n - 2); } fn main(n) { return fib(n % 16 + 5); }",
    "fn main(n) { let i = 2; while i < n { put [i] = 1; let i = i + 1; } let count = 0; let i = 2; while i < n {"
    " if [i] { let count = count + 1; let k = i * i; while k < n { put [k] = 0; let k = k + i; } } let i = i + 1; } return count; }",
    "fn gcd(a, b) { while b { let t = a % b; let a = b; let b = t; } return a; }"
    "fn main(n) { let sum = 0; let i = 1; while i < n / 8 { let sum = sum + gcd(n * 7919, i * 12); let i = i + 1; } return sum; }",
    "fn swap(a, b) { let t = [a]; put [a] = [b]; put [b] = t; } fn main(n) { let len = n / 64; let i = 0; let x = n; while i < len {"
    " let x = (x * 1103515245 + 12345) % 2147483648; put [i] = x; let i = i + 1; } let i = 1; while i < len { let k = i;"
    " while (0 < k) & ([k] < [k - 1]) { swap(k, k - 1); let k = k - 1; } let i = i + 1; } let s = 0; let i = 0;"
    " while i < len { let s = s * 31 + [i]; let i = i + 1; } return s; }",
    "fn main(n) { let most = 0; let i = 1; while i < n / 16 { let x = i; let steps = 0; while !(x = 1) { if x % 2 { let x = 3 * x + 1; }"
    " else { let x = x / 2; } let steps = steps + 1; } if most < steps { let most = steps; } let i = i + 1; } return most; }",
    "fn deep(n) { return deep(n + 1) + 1; } fn main(n) { return deep(n); }",
    "fn main(n) { return other(n); }",
    "fn main(n) { return n + ; }",
};
GUEST(run) {
    i64 sum = 0;
    for (u32 i = 0; i < sizeof programs / sizeof *programs; i++) {
        compile(programs[i]);
        sum = sum * 1000003 + (is_bad ? -(i64)i : ran(n));
    }
    return sum;
}
// A division by zero of the language is one of the guest.
GUEST(divides_by_zero) { compile("fn main(n) { return n / (n - n); }"); return is_bad ? -1 : ran(n); }
