#include "tiger.h"

#define ROW(m, i) ((array *)*at(m, i))

int main(void) {
    int n = 16;
    array *a = make_array(n, (int)make_array(0, 0)), *b = make_array(n, (int)make_array(0, 0)),
          *c = make_array(n, (int)make_array(0, 0));
    int last = sub(n, 1);
    for (int i = 0; i <= last; i++) {
        *at(a, i) = (int)make_array(n, i);
        *at(b, i) = (int)make_array(n, 2);
        *at(c, i) = (int)make_array(n, 0);
    }
    for (int i = 0; i <= last; i++)
        for (int j = 0; j <= last; j++)
            for (int k = 0; k <= last; k++)
                *at(ROW(c, i), j) = add(*at(ROW(c, i), j), mul(*at(ROW(a, i), k), *at(ROW(b, k), j)));
    put(*at(ROW(c, 15), 15));
    return 0;
}
