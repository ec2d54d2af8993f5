#include "tiger.h"

typedef struct node { int k; struct node *l, *r; } node;

static __attribute__((noinline)) node *put_in(node *t, int k) {
    if (t == 0) {
        node *made = make_record(12);
        made->k = k;
        made->l = 0;
        made->r = 0;
        return made;
    }
    if (k < THERE(t)->k) THERE(t)->l = put_in(THERE(t)->l, k);
    else if (k > THERE(t)->k) THERE(t)->r = put_in(THERE(t)->r, k);
    return t;
}

static __attribute__((noinline)) int count(node *t) {
    return t == 0 ? 0 : add(add(1, count(THERE(t)->l)), count(THERE(t)->r));
}

int main(void) {
    node *t = 0;
    int x = 1;
    for (int i = 1; i <= 400; i++) {
        x = add(mul(x, 37), 5);
        x = sub(x, mul(quotient(x, 1009), 1009));
        t = put_in(t, x);
    }
    put(count(t));
    return 0;
}
