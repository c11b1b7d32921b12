/* Lowers chains to structs through libqptr.a, with guards around the lent slice. Says what differs; its status is how much does.
   cc -I host host/c/steps.c target/staticlib/libqptr.a -o steps && ./steps */
#include "qptr.h"
#include <stdio.h>
#include <string.h>

typedef struct qptr_chain_step QPtrChainStep;

static const char sheet[] = "G,1,1,1,1,1,1\nF,32\nV,0,3\nS,0,2,1,0\nR,2,-\nS,1,1,3\nP,12,4\n";
static uint32_t table[QPTR_TABLE_WORDS];
static int differing;

static void same(const char *what, int64_t given, int64_t expected) {
    if (given != expected) {
        printf("%s: %lld, not %lld\n", what, (long long)given, (long long)expected);
        differing++;
    }
}

enum { ROOM = 5, GUARDS = 2 };
static QPtrChainStep all[ROOM + 2 * GUARDS];

/* The answer for a slice of `room` structs; what is behind the steps written, and all around the slice, is as it was. */
static int64_t lowered(uint32_t op, uint32_t ptr, const uint8_t *indices, size_t bytes, size_t room) {
    QPtrChainStep guard;
    memset(&guard, 0xa5, sizeof guard);
    memset(all, 0xa5, sizeof all);
    int64_t answer = qptr_lower_chain_steps(table, QPTR_TABLE_WORDS, op, ptr, indices, bytes, all + GUARDS, room);
    size_t written = answer < 0 ? 0 : (size_t)answer;
    for (size_t i = 0; i < ROOM + 2 * GUARDS; i++)
        if (i < GUARDS || i >= GUARDS + written) same("a guard", memcmp(all + i, &guard, sizeof guard), 0);
    return answer;
}

static void step(size_t i, uint32_t op, int32_t bytes, uint32_t stride, uint32_t length, uint32_t index_kind, uint32_t index) {
    const QPtrChainStep *s = all + GUARDS + i;
    same("op", s->op, op);
    same("bytes", s->bytes, bytes);
    same("stride", s->stride, stride);
    same("length", s->length, length);
    same("index kind", s->index_kind, index_kind);
    same("index", s->index, index);
}

int main(void) {
    same("a struct's bytes", sizeof(QPtrChainStep), 24);
    same("types", qptr_read_sheet((const uint8_t *)sheet, strlen(sheet), table, QPTR_TABLE_WORDS), 6);
    const uint8_t chain[] = {0, 0, 0, 0, 0, 0, 0, 0, 1, 0, 0, 0, 1, 0, 0, 0, 1, 0, 0, 0, 0, 0, 0, 0}; /* 0, v1, 1 */
    same("steps", lowered(65, 5, chain, sizeof chain, ROOM), 3);
    step(0, QPTR_BUFFER_DATA, 0, 0, 0, 0, 0);
    step(1, QPTR_DYN_OFFSET, 0, 16, 0, 1, 1);
    step(2, QPTR_OFFSET, 12, 0, 0, 0, 0);
    same("as many as fit", lowered(65, 5, chain, sizeof chain, 3), 3);
    same("one too few", lowered(65, 5, chain, sizeof chain, 2), -QPTR_SHORT_LIST);
    same("no room", lowered(65, 5, chain, sizeof chain, 0), -QPTR_SHORT_LIST);
    const uint8_t back[] = {0, 0, 0, 0, 0, 0, 0, 0, 255, 255, 255, 255, 0, 0, 0, 0, 1, 0, 0, 0, 0, 0, 0, 0}; /* 0, -1, 1 */
    same("steps back", lowered(65, 5, back, sizeof back, ROOM), 2);
    step(1, QPTR_OFFSET, -4, 0, 0, 0, 0);
    same("no op", lowered(64, 5, chain, sizeof chain, ROOM), -QPTR_MISREAD);
    same("no index", lowered(65, 5, chain, 7, ROOM), -QPTR_MISREAD);
    same("no pointer", lowered(65, 4, chain, sizeof chain, ROOM), -QPTR_NO_POINTER);
    same("an unknown field", lowered(65, 5, chain + 8, 8, ROOM), -QPTR_UNKNOWN_FIELD);
    if (!differing) printf("the structs are document 01's steps\n");
    return differing;
}
