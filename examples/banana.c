/* Prints the nearest smaller suffixes of banana, 6 for none, its tree, and its runs: start, end and period. */
#include "lyndon.h"

#include <stdio.h>

#define N 6

int main(void)
{
    static const uint8_t letters[N] = {'b', 'a', 'n', 'a', 'n', 'a'};
    uint32_t previous[N], next[N], previous_match[N], next_match[N];
    uint32_t starts[N - 1], ends[N - 1], periods[N - 1], work[6][N];
    uint8_t tree[LYNDON_TREE_BYTES(N)];
    LyndonBuildReply built;
    LyndonReply runs;
    size_t i;

    if (lyndon_version() != LYNDON_VERSION) {
        fprintf(stderr, "liblyndon.a and lyndon.h have different versions\n");
        return 1;
    }
    built = lyndon_build(letters, N, N, previous, N, next, N, previous_match, N, next_match, N, tree, sizeof tree);
    if (built.refusal != 0) {
        fprintf(stderr, "refused %lu\n", (unsigned long)built.refusal);
        return 1;
    }
    for (i = 0; i < N; i++) {
        printf("%lu %lu %lu\n", (unsigned long)i, (unsigned long)previous[i], (unsigned long)next[i]);
    }
    for (i = 0; i < sizeof tree; i++) {
        printf("%02x", tree[i]);
    }
    printf("\n");

    runs = lyndon_runs(letters, N, starts, N - 1, ends, N - 1, periods, N - 1, work[0], N, work[1], N, work[2], N, work[3], N,
                       work[4], N, work[5], N);
    if (runs.refusal != 0) {
        fprintf(stderr, "refused %lu\n", (unsigned long)runs.refusal);
        return 1;
    }
    for (i = 0; i < runs.value; i++) {
        printf("run %lu %lu %lu\n", (unsigned long)starts[i], (unsigned long)ends[i], (unsigned long)periods[i]);
    }
    return 0;
}
