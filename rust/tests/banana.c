/* Prints the structure of banana as the tables program does, and asks every exported function on the way. */
#include "lyndon.h"

#include <stdio.h>
#include <string.h>

#define N 6
#define TREE_LENGTH LYNDON_TREE_BYTES(N)
#define ENTRIES 2
#define FILE_LENGTH LYNDON_CABINET_BYTES(ENTRIES, TREE_LENGTH)

static const uint8_t letters[N] = {'b', 'a', 'n', 'a', 'n', 'a'};
static uint32_t previous[N], next[N], previous_match[N], next_match[N];
static uint32_t previous_read[N], next_read[N];
static uint8_t tree[TREE_LENGTH], file[FILE_LENGTH];

static int failed(const char *what)
{
    fprintf(stderr, "%s\n", what);
    return 1;
}

/* Whether each member of a build's reply is where the header has it: those of aabaaab are all different. */
static int members_agree(void)
{
    static const uint8_t word[] = {'a', 'a', 'b', 'a', 'a', 'a', 'b'};
    static uint32_t tables[4][7];
    static uint8_t brackets[2];
    LyndonBuildReply built = lyndon_build(word, 7, 7, tables[0], 7, tables[1], 7, tables[2], 7, tables[3], 7, brackets, 2);
    return built.refusal == 0 && built.finished == 1 && built.rows == 7
        && built.equal == 4 && built.unequal == 8 && built.reach == 6;
}

/* Whether the tree answers as the tables do. */
static int tree_agrees(size_t i)
{
    LyndonReply p = lyndon_previous(N, tree, TREE_LENGTH, i);
    LyndonReply x = lyndon_next(N, tree, TREE_LENGTH, i);
    LyndonReply k = lyndon_place(N, tree, TREE_LENGTH, i);
    return previous_read[i] == previous[i] && next_read[i] == next[i]
        && p.refusal == 0 && p.value == previous[i]
        && x.refusal == 0 && x.value == next[i]
        && k.refusal == 0 && (tree[k.value / 8] >> (k.value % 8) & 1) == 1;
}

/* Whether a reply of a reading is a refusal and no other figure. */
static int is_refused(LyndonCabinetReply reply, uint32_t refusal)
{
    return reply.refusal == refusal && reply.mark == 0 && reply.letters == 0 && reply.start == 0 && reply.length == 0;
}

/* Whether a cabinet of an empty tree and of the tree gives both back, and no third one; and so with the mark LYN1, but not with
 * LYN3. */
static int cabinet_agrees(void)
{
    static const uint32_t counts[ENTRIES] = {0, N};
    uint32_t refusal = lyndon_cabinet_write(counts, ENTRIES, tree, TREE_LENGTH, file, FILE_LENGTH);
    LyndonCabinetReply empty = lyndon_cabinet_read(file, FILE_LENGTH, 0);
    LyndonCabinetReply banana = lyndon_cabinet_read(file, FILE_LENGTH, 1);
    LyndonCabinetReply none = lyndon_cabinet_read(file, FILE_LENGTH, ENTRIES);
    LyndonCabinetReply marked_1, marked_3;
    int is_marked_2 = memcmp(file, "LYN2", 4) == 0;
    file[3] = '1';
    marked_1 = lyndon_cabinet_read(file, FILE_LENGTH, 1);
    file[3] = '3';
    marked_3 = lyndon_cabinet_read(file, FILE_LENGTH, 1);
    return refusal == 0 && is_marked_2
        && empty.refusal == 0 && empty.mark == 2 && empty.letters == 0 && empty.length == 0
        && banana.refusal == 0 && banana.mark == 2 && banana.letters == N && banana.length == TREE_LENGTH
        && memcmp(file + banana.start, tree, TREE_LENGTH) == 0
        && is_refused(none, LYNDON_POSITION_OUTSIDE)
        && marked_1.refusal == 0 && marked_1.mark == 1 && marked_1.letters == N
        && marked_1.start == banana.start && marked_1.length == TREE_LENGTH
        && is_refused(marked_3, LYNDON_NOT_MARKED);
}

/* Whether four tables are those of banana. */
static int are_banana(uint32_t tables[][N])
{
    return memcmp(tables[0], previous, sizeof previous) == 0 && memcmp(tables[1], next, sizeof next) == 0
        && memcmp(tables[2], previous_match, sizeof previous_match) == 0
        && memcmp(tables[3], next_match, sizeof next_match) == 0;
}

/* Whether banana with masked letters has the tables and the tree of banana, and the same longest words. */
static int masked_agrees(void)
{
    static const uint8_t masked[N] = {'b', 'A', 'N', 'a', 'n', 'A'};
    static uint32_t tables[4][N];
    static uint8_t brackets[TREE_LENGTH];
    LyndonBuildReply built = lyndon_build(masked, N, N, tables[0], N, tables[1], N, tables[2], N, tables[3], N,
                                          brackets, TREE_LENGTH);
    size_t i;
    for (i = 0; i < N; i++) {
        LyndonPartReply word = lyndon_word(masked, N, i);
        if (word.refusal != 0 || word.start != i || word.length != next[i] - i) {
            return 0;
        }
    }
    return built.refusal == 0 && built.equal == 3 && built.unequal == 3 && built.reach == 6
        && are_banana(tables) && memcmp(brackets, tree, TREE_LENGTH) == 0;
}

static uint32_t starts[N - 1], ends[N - 1], periods[N - 1], work[6][N];

static void fill_work(uint32_t value)
{
    size_t k, i;
    for (k = 0; k < 6; k++) {
        for (i = 0; i < N; i++) {
            work[k][i] = value;
        }
    }
}

/* Whether all work tables hold a value. */
static int work_holds(uint32_t value)
{
    size_t k, i;
    for (k = 0; k < 6; k++) {
        for (i = 0; i < N; i++) {
            if (work[k][i] != value) {
                return 0;
            }
        }
    }
    return 1;
}

/* The runs of banana in lists of so many entries, over work tables that hold 7. */
static LyndonReply runs_in(size_t entries)
{
    fill_work(7);
    return lyndon_runs(letters, N, starts, entries, ends, entries, periods, entries, work[0], N, work[1], N, work[2], N,
                       work[3], N, work[4], N, work[5], N);
}

/* Whether lists without entries are refused and lists of N - 1 entries hold the one run of banana, and 0 beyond it. */
static int runs_agree(void)
{
    LyndonReply none = runs_in(0);
    int cleared = work_holds(0);
    LyndonReply one = runs_in(N - 1);
    return none.refusal == LYNDON_TOO_MANY_RUNS && none.value == 0 && cleared
        && one.refusal == 0 && one.value == 1 && work_holds(0)
        && starts[0] == 1 && ends[0] == 6 && periods[0] == 2
        && starts[1] == 0 && ends[1] == 0 && periods[1] == 0;
}

/* The check of a claimed table of so many entries, over work tables that hold 7. */
static LyndonCheckReply check_of(const uint32_t *claimed, size_t entries)
{
    fill_work(7);
    return lyndon_check(letters, N, claimed, entries, work[0], N, work[1], N, work[2], N, work[3], N);
}

/* Whether a check finds a claimed table right, or wrong from this position on, and leaves the tables of banana. */
static int is_found(const uint32_t *claimed, uint32_t right, size_t position)
{
    LyndonCheckReply reply = check_of(claimed, N);
    return reply.refusal == 0 && reply.right == right && reply.position == position && are_banana(work);
}

/* Whether banana's next table is right, two others are wrong at 2 and at 5, and a shorter one is refused and leaves the work tables. */
static int check_agrees(void)
{
    static const uint32_t twice_wrong[N] = {1, 3, 4, 5, 5, 0}, beyond_none[N] = {1, 3, 3, 5, 5, 7};
    LyndonCheckReply shorter = check_of(next, N - 1);
    return shorter.refusal == LYNDON_WRONG_TABLE_LENGTH && shorter.right == 0 && shorter.position == 0 && work_holds(7)
        && is_found(next, 1, 0) && is_found(twice_wrong, 0, 2) && is_found(beyond_none, 0, 5);
}

/* Symbols that compare as the letters of banana do, which they would not as signed numbers; and the values of banana with masked
 * letters, which as symbols have no run. */
static const uint32_t symbols[N] = {0x80000000u, 97, 0xffffffffu, 97, 0xffffffffu, 97};
static const uint32_t masked_symbols[N] = {'b', 'A', 'N', 'a', 'n', 'A'};

/* Whether the symbols have the tables, the tree and the longest words of banana, and a position or a row too many is refused. */
static int symbols_agree(void)
{
    static uint32_t tables[4][N];
    static uint8_t brackets[TREE_LENGTH];
    LyndonBuildReply refused = lyndon_build32(symbols, N, N + 1, tables[0], N, tables[1], N, tables[2], N, tables[3], N,
                                              brackets, TREE_LENGTH);
    LyndonBuildReply built = lyndon_build32(symbols, N, N, tables[0], N, tables[1], N, tables[2], N, tables[3], N,
                                            brackets, TREE_LENGTH);
    LyndonPartReply outside = lyndon_word32(symbols, N, N);
    size_t i;
    for (i = 0; i < N; i++) {
        LyndonPartReply word = lyndon_word32(symbols, N, i);
        if (word.refusal != 0 || word.start != i || word.length != next[i] - i) {
            return 0;
        }
    }
    return refused.refusal == LYNDON_TOO_MANY_ROWS && refused.rows == 0 && outside.refusal == LYNDON_POSITION_OUTSIDE
        && built.refusal == 0 && built.finished == 1 && built.rows == N
        && built.equal == 3 && built.unequal == 3 && built.reach == 6
        && are_banana(tables) && memcmp(brackets, tree, TREE_LENGTH) == 0;
}

/* The runs of so many symbols as banana has letters, over work tables that hold 7. */
static LyndonReply runs_of_symbols(const uint32_t *list)
{
    fill_work(7);
    return lyndon_runs32(list, N, starts, N - 1, ends, N - 1, periods, N - 1, work[0], N, work[1], N, work[2], N,
                         work[3], N, work[4], N, work[5], N);
}

/* Whether the symbols have the run of banana, and those of the masked letters none. */
static int runs_of_symbols_agree(void)
{
    LyndonReply one = runs_of_symbols(symbols);
    int found = starts[0] == 1 && ends[0] == 6 && periods[0] == 2 && starts[1] == 0 && work_holds(0);
    LyndonReply none = runs_of_symbols(masked_symbols);
    return one.refusal == 0 && one.value == 1 && found
        && none.refusal == 0 && none.value == 0 && ends[0] == 0 && work_holds(0);
}

/* Whether a check of the symbols answers so, and leaves the tables of banana, or where it is refused the work tables. */
static int is_found_of_symbols(const uint32_t *claimed, size_t entries, uint32_t refusal, uint32_t right, size_t position)
{
    LyndonCheckReply reply;
    fill_work(7);
    reply = lyndon_check32(symbols, N, claimed, entries, work[0], N, work[1], N, work[2], N, work[3], N);
    return reply.refusal == refusal && reply.right == right && reply.position == position
        && (refusal == 0 ? are_banana(work) : work_holds(7));
}

/* Whether banana's next table is that of the symbols, another is wrong at 2, and a shorter one is refused. */
static int check_of_symbols_agrees(void)
{
    static const uint32_t twice_wrong[N] = {1, 3, 4, 5, 5, 0};
    return is_found_of_symbols(next, N, 0, 1, 0) && is_found_of_symbols(twice_wrong, N, 0, 0, 2)
        && is_found_of_symbols(next, N - 1, LYNDON_WRONG_TABLE_LENGTH, 0, 0);
}

/* Whether the string for the tree of banana is as it is numbered, and building it gives the tree back; and whether a buffer that is too
 * short and a tree with a spare bit set are refused, and leave the buffer. */
static int tree_string_agrees(void)
{
    static const uint32_t numbers[N] = {5, 3, 4, 1, 2, 0};
    static const uint8_t spare_bit[TREE_LENGTH] = {0xcd, 0x14};
    static const uint32_t sevens[N] = {7, 7, 7, 7, 7, 7};
    static uint32_t string[N] = {7, 7, 7, 7, 7, 7}, tables[4][N];
    static uint8_t brackets[TREE_LENGTH];
    uint32_t too_short = lyndon_tree_string(N, tree, TREE_LENGTH, string, N - 1);
    uint32_t spare = lyndon_tree_string(N, spare_bit, TREE_LENGTH, string, N);
    int left_alone = memcmp(string, sevens, sizeof string) == 0;
    uint32_t refusal = lyndon_tree_string(N, tree, TREE_LENGTH, string, N);
    LyndonBuildReply built = lyndon_build32(string, N, N, tables[0], N, tables[1], N, tables[2], N, tables[3], N,
                                            brackets, TREE_LENGTH);
    return too_short == LYNDON_WRONG_TABLE_LENGTH && spare == LYNDON_SPARE_BIT_SET && left_alone
        && refusal == 0 && memcmp(string, numbers, sizeof string) == 0
        && built.refusal == 0 && built.finished == 1 && memcmp(brackets, tree, TREE_LENGTH) == 0
        && memcmp(tables[0], previous, sizeof previous) == 0 && memcmp(tables[1], next, sizeof next) == 0;
}

/* Whether the trees of size 3 come in their order, the last is left alone, and sizes 0 and 13 and a tree that is closed too early are
 * refused and leave the buffer. */
static int small_trees_agree(void)
{
    static const uint8_t trees[5] = {0x07, 0x0b, 0x13, 0x0d, 0x15};
    static uint8_t buffer[LYNDON_TREE_BYTES(3)], early[LYNDON_TREE_BYTES(3)] = {0x0e};
    uint32_t none = lyndon_first_tree(0, buffer, 0);
    LyndonNextReply large = lyndon_next_tree(13, early, sizeof early);
    LyndonNextReply closed = lyndon_next_tree(3, early, sizeof early);
    uint32_t refusal = lyndon_first_tree(3, buffer, sizeof buffer);
    size_t k;
    for (k = 0; k < 5; k++) {
        int as_defined = buffer[0] == trees[k];
        LyndonNextReply reply = lyndon_next_tree(3, buffer, sizeof buffer);
        if (!as_defined || reply.refusal != 0 || reply.last != (k == 4)) {
            return 0;
        }
    }
    return refusal == 0 && buffer[0] == trees[4] && none == LYNDON_SIZE_OUTSIDE
        && large.refusal == LYNDON_SIZE_OUTSIDE && large.last == 0
        && closed.refusal == LYNDON_CLOSED_TOO_EARLY && closed.last == 0 && early[0] == 0x0e;
}

int main(void)
{
    size_t i;
    LyndonBuildReply built = lyndon_build(letters, N, N, previous, N, next, N, previous_match, N, next_match, N,
                                          tree, TREE_LENGTH);
    if (lyndon_version() != LYNDON_VERSION) {
        return failed("the versions of header and archive");
    }
    if (built.refusal != 0 || built.finished != 1 || built.rows != N || built.equal != 3 || built.unequal != 3
        || built.reach != 6) {
        return failed("lyndon_build");
    }
    if (!members_agree()) {
        return failed("the members of LyndonBuildReply");
    }
    if (lyndon_read(N, tree, TREE_LENGTH, previous_read, N, next_read, N) != 0) {
        return failed("lyndon_read");
    }
    if (lyndon_previous(N, tree, TREE_LENGTH, N).refusal != LYNDON_POSITION_OUTSIDE) {
        return failed("a position outside the tree");
    }
    if (!masked_agrees()) {
        return failed("banana with masked letters");
    }
    if (!cabinet_agrees()) {
        return failed("the cabinet and the tree differ");
    }
    if (!runs_agree()) {
        return failed("lyndon_runs");
    }
    if (!check_agrees()) {
        return failed("lyndon_check");
    }
    if (!symbols_agree()) {
        return failed("lyndon_build32 and lyndon_word32");
    }
    if (!runs_of_symbols_agree()) {
        return failed("lyndon_runs32");
    }
    if (!check_of_symbols_agrees()) {
        return failed("lyndon_check32");
    }
    if (!tree_string_agrees()) {
        return failed("lyndon_tree_string");
    }
    if (!small_trees_agree()) {
        return failed("lyndon_first_tree and lyndon_next_tree");
    }

    printf("length %d comparisons %lu tree ", N, (unsigned long)(built.equal + built.unequal));
    for (i = 0; i < TREE_LENGTH; i++) {
        printf("%02x", tree[i]);
    }
    printf("\n");
    for (i = 0; i < N; i++) {
        LyndonPartReply word = lyndon_word(letters, N, i);
        if (!tree_agrees(i)) {
            return failed("the tree and the tables differ");
        }
        if (word.refusal != 0 || word.start != i) {
            return failed("lyndon_word");
        }
        printf("%lu ", (unsigned long)i);
        if (previous[i] == N) {
            printf("- ");
        } else {
            printf("%lu ", (unsigned long)previous[i]);
        }
        printf("%lu %lu\n", (unsigned long)next[i], (unsigned long)word.length);
    }
    return 0;
}
