/* Scripts from a seed, for the fuzzing target: seeded CASES SEED [FOLDER]. With a folder, each script is also written there. */
#include <stdint.h>
#include <stdio.h>
#include <stdlib.h>

enum { LONGEST = 600 };

int LLVMFuzzerTestOneInput(const uint8_t *data, size_t size);

static uint64_t state;

/* splitmix64 */
static uint64_t next(void)
{
    uint64_t x = state += UINT64_C(0x9e3779b97f4a7c15);
    x = (x ^ (x >> 30)) * UINT64_C(0xbf58476d1ce4e5b9);
    x = (x ^ (x >> 27)) * UINT64_C(0x94d049bb133111eb);
    return x ^ (x >> 31);
}

static void keep(const char *folder, unsigned long long name, const uint8_t *data, size_t size)
{
    char path[4096];
    FILE *file;
    snprintf(path, sizeof path, "%s/%llu", folder, name);
    file = fopen(path, "wb");
    if (file == NULL || fwrite(data, 1, size, file) != size || fclose(file) != 0) {
        perror(path);
        exit(2);
    }
}

int main(int count, char **words)
{
    unsigned long long cases = count > 1 ? strtoull(words[1], NULL, 10) : 1000, i;
    uint8_t data[LONGEST];
    state = count > 2 ? strtoull(words[2], NULL, 10) : 1;
    for (i = 0; i < cases; i++) {
        size_t size = 1 + next() % LONGEST, j;
        for (j = 0; j < size; j++) {
            data[j] = (uint8_t)next();
        }
        if (count > 3) {
            keep(words[3], i, data, size);
        }
        LLVMFuzzerTestOneInput(data, size);
    }
    return 0;
}
