/* A line of standard output without a C library: a name and a number. */
#include <stddef.h>
static void say(const char *name, size_t n) {
    char line[80], digits[20];
    size_t k = 0, d = 0;
    for (; name[k]; k++) line[k] = name[k];
    do digits[d++] = (char)('0' + n % 10); while (n /= 10);
    while (d) line[k++] = digits[--d];
    line[k++] = '\n';
    long r = 1;
    __asm__ volatile("syscall" : "+a"(r) : "D"(1L), "S"(line), "d"(k) : "rcx", "r11", "memory");
}
