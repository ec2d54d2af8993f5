#include "tiger.h"

typedef struct list { int h; struct list *t; } list;

static __attribute__((noinline)) list *make(int n) {
    if (n == 0) return 0;
    list *rest = make(sub(n, 1));
    list *made = make_record(8);
    made->h = n;
    made->t = rest;
    return made;
}

static __attribute__((noinline)) int sum(list *x) { return x == 0 ? 0 : add(THERE(x)->h, sum(THERE(x)->t)); }

int main(void) {
    for (int i = 1; i <= 20; i++) put(sum(make(200)));
    return 0;
}
