/*
 * Aquabob: a verified StableHLO bench, for C.
 *
 * Three functions read, check and evaluate one StableHLO function given as text. Each is proved to meet its contract:
 * it takes every text, every input and every store, ends, writes nothing but the store, and its answer is the one
 * below and no other. `rt lib` in crates/bench makes crates/bench/out/libbench.a; link with
 *
 *     gcc -Iinclude program.c crates/bench/out/libbench.a
 *
 * Slices. A slice passes as a pointer and then its length, counted in items. It must be memory of the caller's that
 * stays as it is during the call, aligned for its items, and `store`, which is written, must not overlap `text` or
 * `inputs`. Where a length is 0 nothing is read through the pointer, but it must not be NULL: pass the address of any
 * object of that type. No contract can ask this of C, so nothing checks it.
 *
 * Stack. A call of bench_read takes 0.7 MB of stack, of bench_check 2.0 MB, of bench_evaluate 2.1 MB, whatever the
 * text (measured: no proof covers the stack). The main thread of a Linux program has 8 MiB unless its limit was
 * changed; a thread that calls is created with at least 4 MiB (pthread_attr_setstacksize).
 *
 * The functions keep nothing between calls and may be called from several threads at once, each on a store of its own.
 */
#ifndef AQUABOB_H
#define AQUABOB_H

#include <stddef.h>
#include <stdint.h>

#ifdef __cplusplus
extern "C" {
#endif

/*
 * An answer: the refusal, and two numbers that say where. A number that a refusal does not name is 0.
 *
 *   refusal  when                                                     a                        b
 *    0       accepted
 *    1       the text has more than 65,536 bytes                      its length
 *    2       the text is not in the grammar                           byte of the first token
 *                                                                     that does not fit; at the
 *                                                                     end the text's length
 *    3       a well-formed name that the bench does not know: of an   its byte
 *            op, a type, an attribute or a choice
 *    4       a size is passed                                         its byte                 number of the size, 1 to 8
 *    5       a value name is not defined before                       its byte
 *    6       a value name is defined twice                            its byte
 *    7       typing: a wrong number of operands, results or bodies,   op
 *            a type, an attribute or a body that does not fit
 *    8       a constraint of the standard is broken                   op                       its C number
 *    9       the store is shorter than the slots needed               slots needed
 *   10       the inputs have another length than those of the text    length needed
 *   11       an input slot is no value of its type                    slot
 *   12       a divisor is zero                                        op                       element
 *
 * A byte is that of the token's first character, counted from 0. Ops count from 0 in the text's order, the return last,
 * ops inside a reduction's body not counted. Of several refusals the one that answers is: 1; then of 2, 3 and 4 the one
 * at the earliest byte; then an input name given twice; then op by op its names (5, 6), 7, 8 with the lowest C number;
 * then 9, 10, 11 at the lowest slot; then 12 at the first op and its first element.
 *
 * The sizes of refusal 4 are:
 *   1  rank at most 6                                       5  at most 8 operands of an op, inputs, or results
 *   2  each dimension, and the product of the dimensions    6  at most 6 numbers in an attribute's list
 *      with every 0 counted as 1, at most 4,096             7  an attribute's number, outside `dense`, in the signed
 *   3  inputs and op results together at most 8,192            64-bit range
 *      elements                                             8  a sigil and its name at most 32 characters
 *   4  at most 256 ops, the return not counted
 */
typedef struct {
    uint64_t refusal;
    uint64_t a;
    uint64_t b;
} bench_answer;

/* A store of this many slots is long enough for every text. */
#define BENCH_STORE_SLOTS 8192

/* Refusals 0 to 4 of the text: 0 where it is in the grammar with known names and within the sizes. */
bench_answer bench_read(const uint8_t *text, size_t text_len);

/* Refusals 0 to 8 of the text: 0 where it is a program that may be evaluated. */
bench_answer bench_check(const uint8_t *text, size_t text_len);

/*
 * Refusals 0 to 12 of the text on these inputs, and the store afterwards.
 *
 * A slot is 64 bits and holds one element: an unsigned or boolean value as itself, a signed one modulo 2^64 (cast it
 * to int64_t). The elements of a tensor stand in canonical order, the last dimension fastest. `inputs` has the elements
 * of the function's inputs, one input after the other, and so has the store's beginning afterwards; the result of each
 * op follows, in the text's order. The slots needed are all of these; a longer store is fine.
 *
 * After 0 the needed slots hold inputs and results. After 1 to 11 the store is as it was. After 12 it holds the inputs
 * and the results before the op that met the zero divisor, and zeros from that op's first slot to the last needed one.
 * Slots past the needed ones never change. `text` and `inputs` are only read.
 *
 * What the function returns is not copied: the slots of a returned value are those of the op that made it.
 */
bench_answer bench_evaluate(const uint8_t *text, size_t text_len, const uint64_t *inputs, size_t inputs_len,
                            uint64_t *store, size_t store_len);

#ifdef __cplusplus
}
#endif

#endif
