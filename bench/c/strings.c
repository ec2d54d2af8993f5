#include "tiger.h"

typedef struct { int size; unsigned char bytes[]; } string;

static string *make_string(int size) {
    string *made = make_record(4 + (size + 3) / 4 * 4);
    made->size = size;
    return made;
}

static __attribute__((noinline)) string *concat(string *s, string *t) {
    string *made = make_string(s->size + t->size);
    for (int i = 0; i < s->size; i++) made->bytes[i] = s->bytes[i];
    for (int i = 0; i < t->size; i++) made->bytes[s->size + i] = t->bytes[i];
    return made;
}

static __attribute__((noinline)) string *chr(int c) {
    if ((unsigned)c > 255u) STOP(5);
    string *made = make_string(1);
    made->bytes[0] = c;
    return made;
}

static __attribute__((noinline)) string *substring(string *s, int first, int n) {
    if (first < 0 || n < 0 || first > s->size - n) STOP(5);
    string *made = make_string(n);
    for (int i = 0; i < n; i++) made->bytes[i] = s->bytes[first + i];
    return made;
}

static __attribute__((noinline)) int order(string *s, string *t) {
    for (int i = 0;; i++) {
        if (i == s->size || i == t->size) return s->size - t->size;
        if (s->bytes[i] != t->bytes[i]) return s->bytes[i] - t->bytes[i];
    }
}

static __attribute__((noinline)) void print(string *s) {
    for (int i = 0; i < s->size; i++) put_byte(s->bytes[i]);
}

int main(void) {
    string *s = make_string(0), *n = chr('n');
    for (int i = 1; i <= 60; i++) s = concat(s, chr(sub(add('a', i), mul(quotient(i, 26), 26))));
    int last = sub(s->size, 1);
    for (int i = 0; i <= last; i++)
        if (order(substring(s, i, 1), n) < 0) print(substring(s, i, 1));
    return 0;
}
