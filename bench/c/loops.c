#include "tiger.h"

int main(void) {
    int s = 0;
    for (int i = 1; i <= 200; i++)
        for (int j = 1; j <= 200; j++) s = sub(add(s, i), mul(j, quotient(i, 200)));
    put(s);
    return 0;
}
