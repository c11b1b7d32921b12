/* Lowers document 01's chain and asks the other questions of its sheet, through libqptr.a. Says what differs; its status is how much does.
   cc -I host host/c/chain.c target/staticlib/libqptr.a -o chain && ./chain */
#include "qptr.h"
#include <stdio.h>
#include <string.h>

static const char sheet[] = "G,1,1,1,1,1,1\nF,32\nV,0,3\nS,0,2,1,0\nR,2,-\nS,1,1,3\nP,12,4\nT,2\nC,65,5,0,v1,1\nC,65,5,0,2,0\nQ,2,12,16\n";
static const char answers[] = "t,c,0,16,4,16,0,0,12\nc,B,D,16,0,v1,O,12\nc,B,O,32\nq,1\n";
static uint32_t table[QPTR_TABLE_WORDS];
static int differing;

static void same(const char *what, int64_t given, int64_t expected) {
    if (given != expected) {
        printf("%s: %lld, not %lld\n", what, (long long)given, (long long)expected);
        differing++;
    }
}

static uint32_t word(const uint8_t *s) {
    return s[0] | (uint32_t)s[1] << 8 | (uint32_t)s[2] << 16 | (uint32_t)s[3] << 24;
}

int main(void) {
    const uint8_t *bytes = (const uint8_t *)sheet;
    uint8_t out[256];
    same("answers", qptr_answer_sheet(bytes, strlen(sheet), out, sizeof out), (int64_t)strlen(answers));
    same("their text", memcmp(out, answers, strlen(answers)), 0);
    same("a short list", qptr_answer_sheet(bytes, strlen(sheet), out, 4), -QPTR_SHORT_LIST);

    same("types", qptr_read_sheet(bytes, strlen(sheet), table, QPTR_TABLE_WORDS), 6);
    const uint8_t chain[] = {0, 0, 0, 0, 0, 0, 0, 0, 1, 0, 0, 0, 1, 0, 0, 0, 1, 0, 0, 0, 0, 0, 0, 0}; /* 0, v1, 1 */
    const uint32_t expected[] = {QPTR_BUFFER_DATA, 0, 0, 0, 0, QPTR_DYN_OFFSET, 16, 0, 1, 1, QPTR_OFFSET, 12, 0, 0, 0};
    uint8_t steps[QPTR_STEP_BYTES * QPTR_MOST_STEPS];
    same("steps", qptr_lower_chain(table, QPTR_TABLE_WORDS, 65, 5, chain, sizeof chain, steps, sizeof steps), 3);
    for (size_t i = 0; i < 15; i++) same("a word of a step", word(steps + 4 * i), expected[i]);
    same("no pointer", qptr_lower_chain(table, QPTR_TABLE_WORDS, 65, 4, chain, sizeof chain, steps, sizeof steps), -QPTR_NO_POINTER);

    uint32_t found[16];
    same("components", qptr_find_components(table, QPTR_TABLE_WORDS, 2, 12, 16, found, 4), 1);
    same("the component", found[0], 1);
    same("reversed", qptr_find_components(table, QPTR_TABLE_WORDS, 2, 16, 12, found, 4), -QPTR_REVERSED);
    same("array length", qptr_array_length(table, QPTR_TABLE_WORDS, 5, 0, found, 4), 2);
    same("its offset", found[0], 0);
    same("its stride", found[1], 16);
    const uint32_t layout[] = {QPTR_MEMORY, 0, 16, 4, 16, 0, 0, 0, 12};
    same("layout", qptr_type_layout(table, QPTR_TABLE_WORDS, 2, found, 16), 9);
    for (size_t i = 0; i < 9; i++) same("a word of a layout", found[i], layout[i]);
    same("local variable", qptr_local_variable(table, QPTR_TABLE_WORDS, 5, found, 16), 0);
    if (!differing) printf("as document 01 has it\n");
    return differing;
}
