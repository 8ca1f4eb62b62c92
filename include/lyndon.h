/* The Lyndon structure of a string: nearest smaller suffixes, their matches, and the bracket tree; all its runs; the check of a next
 * table that others made; a string for a tree; and all trees of a small size.
 *
 * A string has n letters, n from 0 to 1,000,000, of one byte each or, for the functions whose names end in 32 and in the string that
 * lyndon_tree_string writes, of 32 bits each:
 *   - letters of one byte compare by their unsigned value, but small letters, bytes 97 to 122, as the capitals, 65 to 90: a masked
 *     letter counts as the same letter. So A and a are equal, and the answers for a string are those for the same string in capitals;
 *   - letters of 32 bits, such as allele lengths, are called symbols. They compare as unsigned numbers, with no masking: every value
 *     may occur, and 65 and 97 are two symbols.
 * All else that is said of letters holds for both. A proper prefix is smaller than the longer string. Positions count from 0. Positions,
 * lengths and n count letters, so that for symbols they are not numbers of bytes. 'None' is written n.
 *
 *   match(i, j)        the number of leading letters that the suffixes at i and j share
 *   previous[i]        the greatest j < i whose suffix is smaller than the suffix at i
 *   next[i]            the least j > i whose suffix is smaller than the suffix at i
 *   previous_match[i]  match(previous[i], i); 0 where previous[i] is none
 *   next_match[i]      match(i, next[i]); 0 where next[i] is none
 *
 * The tree has 2n bits, an opening (1) and a closing (0) for each position. Position i hangs under previous[i], or is a root.
 * Positions that hang under the same one stand left to right, and between its brackets; so the i-th opening, from 0, is that of
 * position i. Bit k is in byte k / 8 with weight 2 to the power k mod 8. The tree fills ceil(n / 4) bytes, whose spare bits are 0.
 *
 * The counts of comparisons in a build's reply are those of the reuse steps: row by row from position 0 on, two letters are
 * compared only where a match cannot be copied from one that an earlier row recorded. docs/STEPS.md of the repository has them
 * step by step.
 *
 * A run is a start, an end (exclusive) and a period p >= 1, with length at least 2 * p. Letters p apart inside it are equal, p is
 * its least period, and neither end can be moved out by one letter with p kept. Runs may overlap, and one may lie inside another. A
 * string of n >= 1 letters has fewer than n runs. banana has one, its part anana: start 1, end 6, period 2.
 *
 * A cabinet is a file of many trees. Each number in it has 32 bits, the lowest byte first:
 *
 *   the mark: the four bytes LYN2, or LYN1
 *   the number of entries, 0 to 64
 *   for each entry the place of its tree from the file's first byte, and its letter count n
 *   the trees, in the order of their entries and without gaps
 *
 * The mark says by which order of letters the trees were built. LYN2: the order of bytes above. LYN1, the mark of files written
 * before version 3 of this header: the plain order of the bytes' values, in which A is smaller than a. The two orders give a string
 * other trees only where it has both a small letter and a byte from 65 to 96, which is a capital or one of [ \ ] ^ _ `. A tree by
 * itself does not say its order: one that was built before version 3 has the plain one. Nor does it say whether it is of bytes or
 * of symbols, and no mark does. docs/FORMAT.md of the repository says more.
 *
 * Refusals. No caller has to test anything first: each function takes every value of every number and every length, and answers
 * with a refusal where the rules ask for one, else with 0. Where several apply, the lowest number is returned, except by the
 * functions of a cabinet and those of small trees, which test in the order given at each. A refusal writes nothing to the lent
 * memory, but for 13, which clears the work tables of lyndon_runs or lyndon_runs32 and leaves all else.
 *
 * Memory. Each list passes as a pointer and then its length in entries. What nothing can test, and a caller must see to:
 *   - a pointer points to so many entries, aligned as their type asks;
 *   - it is not null, not even where the length is 0 (malloc(0) may be, and so may data() of an empty std::vector): the functions
 *     take references of the language they are written in, which are never null, and what is proved is proved of references. Any
 *     other pointer will do for an empty list, as that of a variable;
 *   - a list that is written overlaps no other list of the call, and no other thread uses it meanwhile.
 * No function keeps a pointer, allocates memory or changes anything but the lists it is lent, so calls that share no list that is
 * written need no lock.
 *
 * One position or many. A question (lyndon_previous, lyndon_next, lyndon_place) judges the whole tree each time, which takes
 * some 0.2 to 0.5 ms at 1,000,000 positions; lyndon_read gives all entries in 1 to 6 ms. For one position ask; for some dozens
 * or more read once, or build.
 */
#ifndef LYNDON_H
#define LYNDON_H

#include <stddef.h>
#include <stdint.h>

#ifdef __cplusplus
extern "C" {
#endif

/* The version of this header: it rises when a function is added, and with every change of a structure or a function, of what it
 * answers too. A program whose LYNDON_VERSION is not what lyndon_version() returns was compiled against another header than the
 * archive's, and is to be compiled again. */
#define LYNDON_VERSION 7

/* The version of the archive. */
uint32_t lyndon_version(void);

/* The most letters of a string, bytes or symbols, the most entries of a cabinet, and the greatest size whose trees lyndon_first_tree
 * and lyndon_next_tree give. */
#define LYNDON_MAX_LETTERS 1000000
#define LYNDON_MAX_ENTRIES 64
#define LYNDON_MAX_TREE_SIZE 12

/* The length in bytes of the tree of n positions, ceil(n / 4), and of a cabinet file of so many entries, whose trees have so many
 * bytes in all. Of constants they are constants, so that they serve as sizes of arrays (but for n = 0, of which C has none); else
 * the arguments are best of type size_t. n is evaluated twice. */
#define LYNDON_TREE_BYTES(n) ((n) / 4 + ((n) % 4 != 0))
#define LYNDON_CABINET_BYTES(entries, trees_length) (8 + 8 * (entries) + (trees_length))

/* The refusals. */
typedef enum LyndonRefusal {
    LYNDON_NOT_REFUSED = 0,
    LYNDON_TOO_LONG = 1,              /* n above 1,000,000; writing a cabinet: a letter count above 1,000,000 */
    LYNDON_WRONG_TABLE_LENGTH = 2,    /* a lent table, or the buffer for the string of a tree, not exactly n entries long */
    LYNDON_WRONG_TREE_LENGTH = 3,     /* the tree not exactly ceil(n / 4) bytes; writing a cabinet: the trees or the buffer not as
                                         many bytes as the counts ask for */
    LYNDON_TOO_MANY_ROWS = 4,         /* more rows asked than n */
    LYNDON_POSITION_OUTSIDE = 5,      /* a position not below n; reading a cabinet: an entry not below the number of entries */
    LYNDON_SPARE_BIT_SET = 6,         /* a spare bit of the tree is 1 */
    LYNDON_CLOSED_TOO_EARLY = 7,      /* some first bits of the 2n hold more closings than openings */
    LYNDON_LEFT_OPEN = 8,             /* no such place, but not all brackets are closed */
    LYNDON_NOT_MARKED = 9,            /* a cabinet file under 8 bytes or with neither of the marks LYN1 and LYN2 */
    LYNDON_TOO_MANY_ENTRIES = 10,     /* a cabinet with more than 64 entries */
    LYNDON_WRONG_CONTENTS = 11,       /* a cabinet file whose contents are cut short, with a place that is not the end of what
                                         comes before it, with bytes missing or left over at the end, or with a letter count above
                                         1,000,000 */
    LYNDON_UNEQUAL_LIST_LENGTHS = 12, /* the three lists for runs differ in length */
    LYNDON_TOO_MANY_RUNS = 13,        /* more runs than entries in each of the three lists */
    LYNDON_SIZE_OUTSIDE = 14          /* a size outside 1 to 12 */
} LyndonRefusal;

/* The answer of lyndon_build and lyndon_build32. Where it is refused, every member but `refusal` is 0. */
typedef struct LyndonBuildReply {
    uint32_t refusal;  /* 0, or 1 to 4 */
    uint32_t finished; /* 1 where rows = n, 0 where the build is halted before */
    size_t rows;       /* the rows done: always the rows asked */
    size_t equal;      /* the comparisons that the reuse steps make in these rows and that find two letters equal: 0 where
                          rows = 0, else at most reach - 1 */
    size_t unequal;    /* those that find them unequal: 0 where rows = 0, else at most 2 * (rows - 1) */
    size_t reach;      /* the greatest of 1 and r + match(l, r) over the pairs l < r < rows with next[l] = r or previous[r] = l;
                          0 where rows = 0; never above n */
} LyndonBuildReply;

/* The answer to a question put to a tree, and that of lyndon_runs and lyndon_runs32. */
typedef struct LyndonReply {
    uint32_t refusal; /* 0, or of a question 1, 3, 5, 6, 7, 8, of a report of runs 1, 2, 12, 13 */
    size_t value;     /* the answer, of a report the number of runs; 0 where refused */
} LyndonReply;

/* The answer of lyndon_check and lyndon_check32. */
typedef struct LyndonCheckReply {
    uint32_t refusal; /* 0, or 1, 2 */
    uint32_t right;   /* 1 where every entry of the claimed table is the defined one, else 0; 0 where refused */
    size_t position;  /* the least position whose entry is wrong; 0 where none is, and where refused */
} LyndonCheckReply;

/* The answer of lyndon_next_tree. */
typedef struct LyndonNextReply {
    uint32_t refusal; /* 0, or 3, 6, 7, 8, 14 */
    uint32_t last;    /* 1 where the tree is the last of its size, else 0; 0 where refused */
} LyndonNextReply;

/* A part of the caller's string, of lyndon_word its bytes and of lyndon_word32 its symbols. */
typedef struct LyndonPartReply {
    uint32_t refusal; /* 0, or 1, 5 */
    size_t start;     /* where the part starts; 0 where refused */
    size_t length;    /* its length in letters; 0 where refused */
} LyndonPartReply;

/* A tree in a cabinet file. */
typedef struct LyndonCabinetReply {
    uint32_t refusal; /* 0, or 5 to 11 */
    uint32_t mark;    /* the file's mark, which says by which order its trees were built: 1 for LYN1, 2 for LYN2; 0 where refused */
    uint32_t letters; /* the tree's letter count n; 0 where refused */
    size_t start;     /* where the tree starts in the file; 0 where refused */
    size_t length;    /* its length in bytes; 0 where refused */
} LyndonCabinetReply;

/* Builds the first `rows` rows of the structure of `letters`; n is letters_length.
 *
 * Refusals: 1, 2 (for any of the four tables), 3, 4.
 * Memory: a refusal leaves all five lists as they were. Otherwise every entry of the four tables and every byte of the tree is
 * written, whatever it held before:
 *   - previous and previous_match are exact for i < rows;
 *   - next[i] and next_match[i], i < rows, are exact where next[i] < rows, else n and 0;
 *   - for i >= rows, previous and next hold n, and both match tables 0;
 *   - the first 2 * rows bits of the tree are the tree of the positions 0 to rows - 1, and all other bits are 0.
 * Where rows = n these are the tables and the tree of the whole string. */
LyndonBuildReply lyndon_build(const uint8_t *letters, size_t letters_length, size_t rows,
                              uint32_t *previous, size_t previous_length,
                              uint32_t *next, size_t next_length,
                              uint32_t *previous_match, size_t previous_match_length,
                              uint32_t *next_match, size_t next_match_length,
                              uint8_t *tree, size_t tree_length);

/* As lyndon_build, of symbols of 32 bits: they compare as unsigned numbers, with no masking, and every value may occur. n is
 * symbols_length, which counts symbols and not bytes. */
LyndonBuildReply lyndon_build32(const uint32_t *symbols, size_t symbols_length, size_t rows,
                                uint32_t *previous, size_t previous_length,
                                uint32_t *next, size_t next_length,
                                uint32_t *previous_match, size_t previous_match_length,
                                uint32_t *next_match, size_t next_match_length,
                                uint8_t *tree, size_t tree_length);

/* Reads the tree of n positions back into the tables `previous` and `next`. Returns the refusal, or 0.
 *
 * Refusals: 1, 2 (for either table), 3, 6, 7, 8. The tree of a build halted before n rows is refused 7 when it is read with n; its
 * first ceil(rows / 4) bytes, read with `rows` for n, give the entries below `rows`, with `rows` for none.
 * Memory: a refusal leaves both tables as they were. Otherwise every entry of both is written. The tree is only read. */
uint32_t lyndon_read(size_t n, const uint8_t *tree, size_t tree_length,
                     uint32_t *previous, size_t previous_length,
                     uint32_t *next, size_t next_length);

/* previous[position] of the tree of n positions, n for none.
 * Refusals: 1, 3, 5, 6, 7, 8. Memory: nothing is written. */
LyndonReply lyndon_previous(size_t n, const uint8_t *tree, size_t tree_length, size_t position);

/* next[position] of the tree of n positions, n for none.
 * Refusals: 1, 3, 5, 6, 7, 8. Memory: nothing is written. */
LyndonReply lyndon_next(size_t n, const uint8_t *tree, size_t tree_length, size_t position);

/* The bit place of the opening of `position` in the tree of n positions.
 * Refusals: 1, 3, 5, 6, 7, 8. Memory: nothing is written. */
LyndonReply lyndon_place(size_t n, const uint8_t *tree, size_t tree_length, size_t position);

/* Writes a string for the tree of n positions, of symbols of 32 bits: a specimen to test a reader with, and as a rule another string
 * than the one that the tree was built of. The symbol of a position is its number, where the positions are numbered thus: roots from
 * last to first, each followed by all that hangs below it before the next root, children likewise from last to first, counting from
 * 0. So the symbols are 0 to n - 1, and all of them differ. Building the string by lyndon_build32 gives the tree back, and the tables
 * that lyndon_read gives; every match is 0. For the tree of banana the string is 5, 3, 4, 1, 2, 0. Returns the refusal, or 0.
 *
 * Refusals: 1, 2 (for the symbols), 3, 6, 7, 8.
 * Memory: a refusal leaves the symbols as they were. Otherwise every one of them is written. The tree is only read. */
uint32_t lyndon_tree_string(size_t n, const uint8_t *tree, size_t tree_length,
                            uint32_t *symbols, size_t symbols_length);

/* Writes the first tree of `size` positions, size from 1 to 12: all openings, and then all closings. The trees of a size are all its
 * balanced trees, ordered by their first differing bracket, an opening before a closing. Those of size 3 are ((())), (()()), (())(),
 * ()(()), ()()(), whose bytes are 07, 0b, 13, 0d, 15. Returns the refusal, or 0.
 *
 * Refusals, in the order in which they are tested: 14, 3.
 * Memory: a refusal leaves the tree as it was. Otherwise every byte of it is written. */
uint32_t lyndon_first_tree(size_t size, uint8_t *tree, size_t tree_length);

/* Writes the tree after `tree` in its place, in the order that lyndon_first_tree gives; or, where `last` is 1, there is none. Starting
 * from the first tree and going on to the last reaches each tree of the size exactly once: 208,012 trees for size 12.
 *
 * Refusals, in the order in which they are tested: 14, 3, 6, 7, 8.
 * Memory: a refusal leaves the tree as it was, and so does the last tree. Otherwise it is the next tree at exit. */
LyndonNextReply lyndon_next_tree(size_t size, uint8_t *tree, size_t tree_length);

/* The longest Lyndon word that starts at `position`: it starts there, and its length is next[position] - position. The part is that
 * of the caller's own letters, small ones and capitals as they stand. n is letters_length.
 * Refusals: 1, 5; the part is then the empty one at the string's start. Memory: nothing is written. */
LyndonPartReply lyndon_word(const uint8_t *letters, size_t letters_length, size_t position);

/* As lyndon_word, of symbols of 32 bits: they compare as unsigned numbers, with no masking, and every value may occur. n is
 * symbols_length; it, the position, and the start and the length of the part count symbols and not bytes. */
LyndonPartReply lyndon_word32(const uint32_t *symbols, size_t symbols_length, size_t position);

/* Reports every run of `letters` once, by start and then by period: run k, from 0, has its start in starts[k], its end in ends[k]
 * and its period in periods[k]. The value is the number of runs. n is letters_length.
 *
 * The three lists have one length, whatever it is. n - 1 entries are enough for every string of n >= 1 letters: 13 occurs with shorter
 * lists only. The six work tables have n entries each, and may hold anything before.
 *
 * Refusals, in the order in which they are tested: 1, 2 (for any of the six work tables), 12, 13 (exactly where there are more runs
 * than entries).
 * Memory: a refusal leaves the three lists as they were. Otherwise every entry of them is written, those beyond the number of runs
 * with 0. The six work tables hold 0 afterwards, also after 13; the refusals 1, 2 and 12 leave them as they were. */
LyndonReply lyndon_runs(const uint8_t *letters, size_t letters_length,
                        uint32_t *starts, size_t starts_length,
                        uint32_t *ends, size_t ends_length,
                        uint32_t *periods, size_t periods_length,
                        uint32_t *work_1, size_t work_1_length,
                        uint32_t *work_2, size_t work_2_length,
                        uint32_t *work_3, size_t work_3_length,
                        uint32_t *work_4, size_t work_4_length,
                        uint32_t *work_5, size_t work_5_length,
                        uint32_t *work_6, size_t work_6_length);

/* As lyndon_runs, of symbols of 32 bits: they are equal where they are the same number, with no masking, and every value may occur. n
 * is symbols_length; it, and the starts, ends and periods, count symbols and not bytes. */
LyndonReply lyndon_runs32(const uint32_t *symbols, size_t symbols_length,
                          uint32_t *starts, size_t starts_length,
                          uint32_t *ends, size_t ends_length,
                          uint32_t *periods, size_t periods_length,
                          uint32_t *work_1, size_t work_1_length,
                          uint32_t *work_2, size_t work_2_length,
                          uint32_t *work_3, size_t work_3_length,
                          uint32_t *work_4, size_t work_4_length,
                          uint32_t *work_5, size_t work_5_length,
                          uint32_t *work_6, size_t work_6_length);

/* Says whether `claimed` is the next table of `letters`, whoever made it and by whatever method. Where it is not refused, `right` is 1
 * exactly if every entry is the defined one, with n for none; else `position` is the least position whose entry is wrong. An entry of
 * `claimed` may be any number of 32 bits. n is letters_length.
 *
 * Refusals: 1, 2 (for the claimed table or any of the four work tables).
 * Memory: the claimed table is only read, and must not be lent as a work table too. A refusal leaves the four work tables as they were.
 * Otherwise every entry of them is written, whichever the answer: they hold what lyndon_build leaves in its four after n rows. */
LyndonCheckReply lyndon_check(const uint8_t *letters, size_t letters_length,
                              const uint32_t *claimed, size_t claimed_length,
                              uint32_t *previous, size_t previous_length,
                              uint32_t *next, size_t next_length,
                              uint32_t *previous_match, size_t previous_match_length,
                              uint32_t *next_match, size_t next_match_length);

/* As lyndon_check, of symbols of 32 bits: they compare as unsigned numbers, with no masking, and every value may occur. n is
 * symbols_length, which counts symbols and not bytes. The work tables hold what lyndon_build32 leaves in its four after n rows. */
LyndonCheckReply lyndon_check32(const uint32_t *symbols, size_t symbols_length,
                                const uint32_t *claimed, size_t claimed_length,
                                uint32_t *previous, size_t previous_length,
                                uint32_t *next, size_t next_length,
                                uint32_t *previous_match, size_t previous_match_length,
                                uint32_t *next_match, size_t next_match_length);

/* Writes the cabinet file of the trees with the letter counts `counts`. `trees` holds them end to end. `file` has exactly the
 * file's length: 8 bytes, and for each count n 8 and ceil(n / 4) bytes. Its mark is LYN2. Returns the refusal, or 0.
 *
 * Nothing can test by which order a tree was built. A tree that was built before version 3, as those of a LYN1 file were, is to be
 * written here only where its string has no small letter, or has none of the bytes 65 to 96: of any other string the mark would
 * tell the wrong order, so it is built anew, or its LYN1 file is kept as it is.
 *
 * Refusals, in the order in which they are tested: 10, 1, 3 (for the trees or the file), then 6, 7, 8 tree by tree, so that the
 * first faulty tree decides.
 * Memory: a refusal leaves the file as it was. Otherwise every byte of it is written. Counts and trees are only read. */
uint32_t lyndon_cabinet_write(const uint32_t *counts, size_t counts_length,
                              const uint8_t *trees, size_t trees_length,
                              uint8_t *file, size_t file_length);

/* Checks the whole cabinet file, whichever entry is asked for, and gives the tree of `entry` as a part of the file. Entries count
 * from 0. The part starts at the place that the contents give. Files of both marks are read, and the reply says which mark it is;
 * what is read from a LYN2 file, written again, is the same file.
 *
 * Refusals, in the order in which they are tested: 9, 10, 11, 5, then 6, 7, 8 tree by tree, so that the first faulty tree decides.
 * The part is then the empty one at the file's start. Memory: nothing is written. */
LyndonCabinetReply lyndon_cabinet_read(const uint8_t *file, size_t file_length, size_t entry);

#ifdef __cplusplus
}
#endif

#endif
