#include "tiger.h"

int main(void) {
    int n = 150, x = 7;
    array *a = make_array(n, 0);
    int last = sub(n, 1);
    for (int i = 0; i <= last; i++) {
        x = add(mul(x, 31), 11);
        x = sub(x, mul(quotient(x, 997), 997));
        *at(a, i) = x;
    }
    for (int i = 1; i <= last; i++) {
        int v = *at(a, i), j = sub(i, 1);
        while (j >= 0 ? *at(a, j) > v : 0) {
            *at(a, add(j, 1)) = *at(a, j);
            j = sub(j, 1);
        }
        *at(a, add(j, 1)) = v;
    }
    put(*at(a, 0));
    put(*at(a, sub(n, 1)));
    return 0;
}
