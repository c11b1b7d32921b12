/* The C functions of libqptr.a. A list is handed over as its address and its length. A negative answer is minus the number of a refusal, and then
   every lent list is as it was. A call takes up to half a megabyte of stack, most for long chains. */
#ifndef QPTR_H
#define QPTR_H
#include <stddef.h>
#include <stdint.h>

#define QPTR_TABLE_WORDS 7175 /* words of a sheet's table */
#define QPTR_INDEX_BYTES 8    /* an index: its word, then 0 (known) or 1 (unknown); words are little-endian */
#define QPTR_STEP_BYTES 20    /* a step: kind, bytes or stride, length or 0, 1 where its index is unknown, the index */
#define QPTR_MOST_STEPS 256   /* steps of a chain of 255 indices, the most there can be */
#define QPTR_MOST_MEMBERS 1024 /* members of a sheet, and so components that can hold a range */

enum qptr_step_kind { QPTR_HANDLE_ARRAY_INDEX = 1, QPTR_BUFFER_DATA = 2, QPTR_OFFSET = 3, QPTR_DYN_OFFSET = 4 };

enum qptr_form { QPTR_MEMORY = 1, QPTR_BUFFER = 2, QPTR_OPAQUE = 3, QPTR_BUFFER_ARRAY = 4, QPTR_OPAQUE_ARRAY = 5 };

enum qptr_refusal {
    QPTR_MISREAD = 1,
    QPTR_OVERSIZE = 2,
    QPTR_BAD_SETTING = 3,
    QPTR_UNSUPPORTED = 4,
    QPTR_ODD_WIDTH = 5,
    QPTR_ZERO_LENGTH = 6,
    QPTR_SPECIALIZATION = 7,
    QPTR_ZERO_STRIDE = 8,
    QPTR_NESTED_HANDLES = 9,
    QPTR_UNSIZED_ELEMENT = 10,
    QPTR_HANDLE_MEMBER = 11,
    QPTR_ROW_MAJOR = 12,
    QPTR_OFFSET_REPEATED = 13,
    QPTR_OFFSETS_MISSING = 14,
    QPTR_UNSIZED_MISPLACED = 15,
    QPTR_OVERFLOW = 16,
    QPTR_AMBIGUOUS = 17,
    QPTR_NO_POINTER = 18,
    QPTR_NO_PARTS = 19,
    QPTR_UNKNOWN_FIELD = 20,
    QPTR_FIELD_OUTSIDE = 21,
    QPTR_FAR_FIELD = 22,
    QPTR_STEP_OVERFLOW = 23,
    QPTR_SHORT_LIST = 24,
    QPTR_NO_BUFFER = 25,
    QPTR_NO_RUNTIME_ARRAY = 26,
    QPTR_NOT_LAST = 27,
    QPTR_REVERSED = 28
};

#ifdef __cplusplus
extern "C" {
#endif

/* The answer lines of a sheet, as `lay` writes them; how many bytes. */
int64_t qptr_answer_sheet(const uint8_t *sheet, size_t sheet_len, uint8_t *out, size_t out_len);

/* Reads a sheet into a table; how many types. */
int64_t qptr_read_sheet(const uint8_t *sheet, size_t sheet_len, uint32_t *table, size_t table_len);

/* Lowers a chain, op 65, 66, 67 or 70; how many steps. */
int64_t qptr_lower_chain(const uint32_t *table, size_t table_len, uint32_t op, uint32_t ptr, const uint8_t *indices, size_t indices_len,
                         uint8_t *steps, size_t steps_len);

/* A step as a record: op (enum qptr_step_kind), bytes of an offset, stride and length or 0, whether its index is unknown, the index. */
struct qptr_chain_step {
    uint32_t op;
    int32_t bytes;
    uint32_t stride;
    uint32_t length;
    uint32_t index_kind;
    uint32_t index;
};

/* Lowers a chain into records; how many steps. */
int64_t qptr_lower_chain_steps(const uint32_t *table, size_t table_len, uint32_t op, uint32_t ptr, const uint8_t *indices, size_t indices_len,
                               struct qptr_chain_step *steps, size_t steps_len);

/* The layout of a type, 7 words and the offsets of its fields: form (enum qptr_form), length of a handle array or 0, size, alignment, legacy
   alignment, runtime stride or 0, stride of an array or 0; how many words. */
int64_t qptr_type_layout(const uint32_t *table, size_t table_len, uint32_t ty, uint32_t *out, size_t out_len);

/* The components of a type that hold the bytes from start to end, rising; how many. */
int64_t qptr_find_components(const uint32_t *table, size_t table_len, uint32_t ty, uint32_t start, uint32_t end, uint32_t *out, size_t out_len);

/* Where a runtime array that ends a block begins, and its stride: 2 words. */
int64_t qptr_array_length(const uint32_t *table, size_t table_len, uint32_t ptr, uint32_t member, uint32_t *out, size_t out_len);

/* The size, alignment and legacy alignment of a local variable, 3 words; or none, 0, where it isn't memory of a fixed size. */
int64_t qptr_local_variable(const uint32_t *table, size_t table_len, uint32_t ptr, uint32_t *out, size_t out_len);

#ifdef __cplusplus
}
#endif
#endif
