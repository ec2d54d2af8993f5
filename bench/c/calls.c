#include "tiger.h"

static __attribute__((noinline)) int fib(int n) { return n < 2 ? n : add(fib(sub(n, 1)), fib(sub(n, 2))); }

int main(void) {
    put(fib(20));
    return 0;
}
