#include "tiger.h"

int main(void) {
    int s = 0;
    __attribute__((noinline)) void a(int n) {
        __attribute__((noinline)) void b(int k) {
            __attribute__((noinline)) void c(int j) { s = add(add(add(s, n), k), j); }
            for (int j = 1; j <= 10; j++) c(j);
        }
        for (int k = 1; k <= 10; k++) b(k);
    }
    for (int n = 1; n <= 20; n++) a(n);
    put(s);
    return 0;
}
