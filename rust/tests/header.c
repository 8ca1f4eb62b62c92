/* Prints the constants of the header and where the members of its structures are, a name and a number to a line. */
#include "lyndon.h"

#include <stdio.h>

static void show(const char *name, unsigned long value)
{
    printf("%s %lu\n", name, value);
}

#define SHOW(constant) show(#constant, (unsigned long)(constant))

/* Of constants the lengths are constants. */
struct buffers {
    uint8_t tree[LYNDON_TREE_BYTES(7)];
    uint8_t file[LYNDON_CABINET_BYTES(2, 3)];
};

int main(void)
{
    SHOW(LYNDON_VERSION);
    SHOW(LYNDON_MAX_LETTERS);
    SHOW(LYNDON_MAX_ENTRIES);
    SHOW(LYNDON_MAX_TREE_SIZE);
    SHOW(LYNDON_NOT_REFUSED);
    SHOW(LYNDON_TOO_LONG);
    SHOW(LYNDON_WRONG_TABLE_LENGTH);
    SHOW(LYNDON_WRONG_TREE_LENGTH);
    SHOW(LYNDON_TOO_MANY_ROWS);
    SHOW(LYNDON_POSITION_OUTSIDE);
    SHOW(LYNDON_SPARE_BIT_SET);
    SHOW(LYNDON_CLOSED_TOO_EARLY);
    SHOW(LYNDON_LEFT_OPEN);
    SHOW(LYNDON_NOT_MARKED);
    SHOW(LYNDON_TOO_MANY_ENTRIES);
    SHOW(LYNDON_WRONG_CONTENTS);
    SHOW(LYNDON_UNEQUAL_LIST_LENGTHS);
    SHOW(LYNDON_TOO_MANY_RUNS);
    SHOW(LYNDON_SIZE_OUTSIDE);
    SHOW(LYNDON_TREE_BYTES(0));
    SHOW(LYNDON_TREE_BYTES(1));
    SHOW(LYNDON_TREE_BYTES(4));
    SHOW(LYNDON_TREE_BYTES(5));
    SHOW(LYNDON_TREE_BYTES(1000000));
    SHOW(sizeof(struct buffers));
    SHOW(offsetof(LyndonBuildReply, refusal));
    SHOW(offsetof(LyndonBuildReply, finished));
    SHOW(offsetof(LyndonBuildReply, rows));
    SHOW(offsetof(LyndonBuildReply, equal));
    SHOW(offsetof(LyndonBuildReply, unequal));
    SHOW(offsetof(LyndonBuildReply, reach));
    SHOW(sizeof(LyndonBuildReply));
    SHOW(offsetof(LyndonReply, refusal));
    SHOW(offsetof(LyndonReply, value));
    SHOW(sizeof(LyndonReply));
    SHOW(offsetof(LyndonCheckReply, refusal));
    SHOW(offsetof(LyndonCheckReply, right));
    SHOW(offsetof(LyndonCheckReply, position));
    SHOW(sizeof(LyndonCheckReply));
    SHOW(offsetof(LyndonNextReply, refusal));
    SHOW(offsetof(LyndonNextReply, last));
    SHOW(sizeof(LyndonNextReply));
    SHOW(offsetof(LyndonPartReply, refusal));
    SHOW(offsetof(LyndonPartReply, start));
    SHOW(offsetof(LyndonPartReply, length));
    SHOW(sizeof(LyndonPartReply));
    SHOW(offsetof(LyndonCabinetReply, refusal));
    SHOW(offsetof(LyndonCabinetReply, mark));
    SHOW(offsetof(LyndonCabinetReply, letters));
    SHOW(offsetof(LyndonCabinetReply, start));
    SHOW(offsetof(LyndonCabinetReply, length));
    SHOW(sizeof(LyndonCabinetReply));
    return 0;
}
