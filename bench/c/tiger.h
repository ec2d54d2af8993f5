/* What the C programs beside those of bench/run share: Tiger's checks, by the machine's own instructions where
   it has them, and the services that they ask for. Nothing of it is part of the product. */
#define STOP(n) do { __asm__ volatile("break " #n); __builtin_unreachable(); } while (0)

static inline __attribute__((always_inline)) int add(int a, int b) {
    int r;
    __asm__("add %0,%1,%2" : "=r"(r) : "r"(a), "rI"(b));
    return r;
}

static inline __attribute__((always_inline)) int sub(int a, int b) {
    int r;
    __asm__("sub %0,%1,%2" : "=r"(r) : "r"(a), "rI"(b));
    return r;
}

static inline __attribute__((always_inline)) int mul(int a, int b) {
    int low, high;
    __asm__("mult %2,%3\n\tmflo %0\n\tmfhi %1" : "=&r"(low), "=r"(high) : "r"(a), "r"(b));
    if (high != low >> 31) STOP(1);
    return low;
}

static inline __attribute__((always_inline)) int quotient(int a, int b) {
    if (b == 0) STOP(4);
    return a / b;
}

static inline __attribute__((always_inline)) int service(int number, int word) {
    register int v0 __asm__("$2") = number;
    register int a0 __asm__("$4") = word;
    __asm__ volatile("syscall" : "+r"(v0) : "r"(a0) : "memory");
    return v0;
}

static inline __attribute__((always_inline)) void put_byte(int c) { service(11, c); }

static inline __attribute__((always_inline)) void *make_record(int bytes) { return (void *)service(9, bytes); }

typedef struct { int length; int items[]; } array;

static __attribute__((noinline)) array *make_array(int n, int value) {
    if (n < 0) STOP(6);
    if ((unsigned)n >= 67108864u) STOP(7);
    array *made = (array *)service(9, 4 * n + 4);
    made->length = n;
    for (int i = 0; i < n; i++) made->items[i] = value;
    return made;
}

/* the element at a place of an array */
static inline __attribute__((always_inline)) int *at(array *a, int i) {
    if ((unsigned)i >= (unsigned)a->length) STOP(3);
    return &a->items[i];
}

/* a record that isn't nil */
#define THERE(r) ({ __typeof__(r) there = (r); if (!there) STOP(2); there; })

static __attribute__((noinline)) void put(int n) {
    if (n > 9) put(quotient(n, 10));
    put_byte(sub(add(48, n), mul(quotient(n, 10), 10)));
}
