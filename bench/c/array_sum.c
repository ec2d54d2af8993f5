#include "tiger.h"

int main(void) {
    array *a = make_array(1000, 3);
    int s = 0;
    for (int k = 1; k <= 20; k++)
        for (int i = 0; i <= 999; i++) s = add(s, *at(a, i));
    put(s);
    return 0;
}
