/*
 * The bench from C: evaluates a text and prints the slots of its last op's result, evaluates one on inputs, and shows
 * two texts that are refused. tools/c_example.sh builds it, runs it and compares what it prints with evaluate.out.
 */
#include <inttypes.h>
#include <stdio.h>
#include <string.h>

#include "aquabob.h"

/* The table has four rows; the start index 255 is read as unsigned and clamped to the last row. */
static const char sample[] =
    "func.func @main() -> tensor<1xui16> {\n"
    "  %t = \"stablehlo.constant\"() {value = dense<[1650, 1675, 1700, 1725]> : tensor<4xui16>} : () -> tensor<4xui16>\n"
    "  %i = \"stablehlo.constant\"() {value = dense<255> : tensor<ui8>} : () -> tensor<ui8>\n"
    "  %r = \"stablehlo.dynamic_slice\"(%t, %i) {slice_sizes = array<i64: 1>} : (tensor<4xui16>, tensor<ui8>) -> "
    "tensor<1xui16>\n"
    "  \"func.return\"(%r) : (tensor<1xui16>) -> ()\n"
    "}\n";

static const char quotient[] =
    "func.func @main(%a: tensor<4xi32>, %b: tensor<4xi32>) -> tensor<4xi32> {\n"
    "  %q = \"stablehlo.divide\"(%a, %b) : (tensor<4xi32>, tensor<4xi32>) -> tensor<4xi32>\n"
    "  \"func.return\"(%q) : (tensor<4xi32>) -> ()\n"
    "}\n";

static const char undefined[] =
    "func.func @main() -> tensor<i8> {\n"
    "  %r = \"stablehlo.abs\"(%x) : (tensor<i8>) -> tensor<i8>\n"
    "  \"func.return\"(%r) : (tensor<i8>) -> ()\n"
    "}\n";

static uint64_t store[BENCH_STORE_SLOTS];

/* One line: the answer, then the slots from `from` to before `to` as signed numbers. */
static void show(const char *name, bench_answer answer, size_t from, size_t to)
{
    printf("%s: refusal %" PRIu64 ", a %" PRIu64 ", b %" PRIu64, name, answer.refusal, answer.a, answer.b);
    for (size_t slot = from; slot < to; slot++) {
        printf("%s%" PRId64, slot == from ? ", slots " : " ", (int64_t)store[slot]);
    }
    printf("\n");
}

static bench_answer evaluate(const char *text, const uint64_t *inputs, size_t inputs_len)
{
    return bench_evaluate((const uint8_t *)text, strlen(text), inputs, inputs_len, store, BENCH_STORE_SLOTS);
}

int main(void)
{
    /* An empty slice has length 0 and a pointer that is not NULL. */
    const uint64_t none[1] = {0};
    uint64_t inputs[8] = {17, (uint64_t)-17, 17, (uint64_t)-17, 3, 3, (uint64_t)-3, (uint64_t)-3};

    show("sample", evaluate(sample, none, 0), 5, 6);
    show("quotient", evaluate(quotient, inputs, 8), 8, 12);
    inputs[6] = 0;
    show("zero divisor", evaluate(quotient, inputs, 8), 8, 12);
    show("inputs missing", evaluate(quotient, none, 0), 0, 0);
    show("undefined name", evaluate(undefined, none, 0), 0, 0);
    show("undefined name, read only", bench_read((const uint8_t *)undefined, strlen(undefined)), 0, 0);
    show("undefined name, checked", bench_check((const uint8_t *)undefined, strlen(undefined)), 0, 0);
    show("no text", bench_check((const uint8_t *)"", 0), 0, 0);
    return 0;
}
