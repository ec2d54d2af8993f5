#include "tiger.h"

int main(void) {
    int n = 6, found = 0;
    array *row = make_array(n, 0), *d1 = make_array(sub(add(n, n), 1), 0), *d2 = make_array(sub(add(n, n), 1), 0);
    __attribute__((noinline)) void try(int c) {
        if (c == n) {
            found = add(found, 1);
            return;
        }
        int last = sub(n, 1);
        for (int r = 0; r <= last; r++)
            if (*at(row, r) == 0 && *at(d1, add(r, c)) == 0 && *at(d2, sub(sub(add(r, n), 1), c)) == 0) {
                *at(row, r) = 1;
                *at(d1, add(r, c)) = 1;
                *at(d2, sub(sub(add(r, n), 1), c)) = 1;
                try(add(c, 1));
                *at(row, r) = 0;
                *at(d1, add(r, c)) = 0;
                *at(d2, sub(sub(add(r, n), 1), c)) = 0;
            }
    }
    try(0);
    put_byte(add(48, found));
    return 0;
}
