/* Opens a large tree for so many keys of 16 bytes with values of 8 (for_pairs), loads them in drawn order by one seat, and looks each up once. Prints the seconds of
 * each, and the memory that the process has then. The status is 1 if an insert is refused or a lookup is wrong. */
#include "bwtree.h"
#include <stdio.h>
#include <stdlib.h>
#include <string.h>
#include <time.h>

static double seconds(void) {
    struct timespec time;
    clock_gettime(CLOCK_MONOTONIC, &time);
    return (double)time.tv_sec + (double)time.tv_nsec * 1e-9;
}

/* So many MB, by a line of /proc/self/status. */
static long megabytes(const char *what) {
    char line[256];
    long found = 0;
    FILE *file = fopen("/proc/self/status", "r");
    if (!file) return 0;
    while (fgets(line, sizeof line, file))
        if (!strncmp(line, what, strlen(what))) found = atol(line + strlen(what));
    fclose(file);
    return found / 1024;
}

/* The key of a number: 16 hexadecimal digits, in no order of the numbers. */
static void write_key(uint64_t number, char *key) { snprintf(key, 17, "%016llx", (unsigned long long)(number * 0x9E3779B97F4A7C15u)); }

int main(int count, char **words) {
    static bwtree tree;
    bwtree_limits limits;
    bwtree_bytes old;
    char key[17];
    uint64_t keys = count > 1 ? strtoull(words[1], NULL, 10) : 1000000, refused = 0, wrong = 0;
    double begin = seconds();
    if (bwtree_limits_for_pairs(1, keys, 16, 8, &limits) != BWTREE_OK || bwtree_open(&limits, &tree) != BWTREE_OK) return 1;
    double opened = seconds();
    printf("opened in %.2f seconds: %ld MB, at most %ld\n", opened - begin, megabytes("VmRSS:"), megabytes("VmHWM:"));
    for (uint64_t number = 0; number < keys; number++) {
        write_key(number, key);
        if (bwtree_insert(&tree, 0, key, 16, &number, 8, &old) != BWTREE_OK) refused++;
    }
    double loaded = seconds();
    printf("%llu keys loaded in %.1f seconds, %llu refused: %ld MB\n", (unsigned long long)keys, loaded - opened, (unsigned long long)refused, megabytes("VmRSS:"));
    for (uint64_t number = 0; number < keys; number++) {
        write_key(number, key);
        if (bwtree_get(&tree, 0, key, 16, &old) != BWTREE_OK || old.length != 8 || memcmp(old.bytes, &number, 8)) wrong++;
    }
    printf("read in %.1f seconds, %llu wrong: %ld MB\n", seconds() - loaded, (unsigned long long)wrong, megabytes("VmRSS:"));
    return refused || wrong;
}
