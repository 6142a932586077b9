/* Document 01's rules of refusal for the two entries, and the calls held to them. */
#include "expected.h"

#include "glimmeldoek.h"
#include "lent.h"

#include <stdio.h>
#include <stdlib.h>
#include <string.h>

enum { LENT_BYTES = 8192, NUMBERS = 16 };

static unsigned long list_met[NUMBERS], pla_met[NUMBERS];

static void fail(const char *entry, const char *what, enum way way, uint64_t answer, uint64_t expected)
{
    printf("%s: %s differs in way %d: answered %u, %u, expected %u, %u\n", entry, what, (int)way,
           (unsigned)glimmeldoek_refusal_of(answer), (unsigned)glimmeldoek_payload_of(answer),
           (unsigned)glimmeldoek_refusal_of(expected), (unsigned)glimmeldoek_payload_of(expected));
}

static size_t shorter(size_t a, size_t b)
{
    return a < b ? a : b;
}

static int is_order(uint32_t n, const struct run *order)
{
    unsigned met[MAX_INPUTS + 1] = {0};
    if (order->len != 4 * (size_t)n) {
        return 0;
    }
    for (size_t i = 0; i < n; i++) {
        uint32_t v = word_at(order, i);
        if (v < 1 || v > n || met[v]++ > 0) {
            return 0;
        }
    }
    return 1;
}

static int well_formed(uint32_t n, const struct run *sheet)
{
    size_t numbers = sheet->len / 4, zeros = 0;
    for (size_t i = 0; i < numbers; i++) {
        uint32_t word = word_at(sheet, i);
        if (word > n && word < 0 - n) {
            return 0;
        }
        zeros += word == 0;
    }
    int closed = numbers == 0 || word_at(sheet, numbers - 1) == 0;
    return sheet->len % 4 == 0 && numbers <= MAX_NUMBERS && zeros <= MAX_CLAUSES && closed;
}

static struct outcome refused(uint32_t number)
{
    return (struct outcome){number, 0, {{0, 0}, {0, 0}}};
}

/* The lowest refusal that applies, or else the outcome in form. */
static struct outcome expected_list(const struct list_call *call, const struct outcome *in_form)
{
    if (call->n < 1 || call->n > MAX_INPUTS) {
        return refused(1);
    }
    if (!is_order(call->n, call->order)) {
        return refused(2);
    }
    if (!well_formed(call->n, call->on)) {
        return refused(3);
    }
    if (!well_formed(call->n, call->off)) {
        return refused(4);
    }
    if (in_form->refusal == 0 && in_form->payload > shorter(call->care_len, call->value_len) / 4) {
        return refused(15);
    }
    return *in_form;
}

/* What stands in the lent runs before a call, and what must stand there afterwards. */
static uint8_t before[LENT_BYTES], care_after[LENT_BYTES], value_after[LENT_BYTES], text_after[LENT_BYTES];

static void put_before(uint8_t *after, size_t len)
{
    for (size_t i = 0; i < len; i++) {
        before[i] = after[i] = (uint8_t)(7 * i + 3);
    }
}

static void put_rows(const struct list_call *call, const struct outcome *outcome)
{
    put_before(care_after, call->care_len);
    put_before(value_after, call->value_len);
    for (size_t i = 0; outcome->refusal == 0 && i < 4 * (size_t)outcome->payload; i++) {
        care_after[i] = (uint8_t)(outcome->rows[i / 4].care >> (8 * (i % 4)));
        value_after[i] = (uint8_t)(outcome->rows[i / 4].value >> (8 * (i % 4)));
    }
}

void list(const struct list_call *call, const struct outcome *in_form)
{
    struct outcome outcome = expected_list(call, in_form);
    uint64_t expected = ((uint64_t)outcome.refusal << 32) + outcome.payload;
    put_rows(call, &outcome);
    for (enum way way = EXACT; way < WAYS; way++) {
        struct lent order = lend(way, 0, call->order->bytes, call->order->len);
        struct lent on = lend(way, 1, call->on->bytes, call->on->len);
        struct lent off = lend(way, 2, call->off->bytes, call->off->len);
        struct lent care = lend(way, 3, before, call->care_len);
        struct lent value = lend(way, 4, before, call->value_len);
        uint64_t answer = glimmeldoek_list(call->n, order.run, order.len, on.run, on.len, off.run, off.len, care.run,
                                           care.len, value.run, value.len);
        int read = returned(&order, call->order->bytes) & returned(&on, call->on->bytes)
                   & returned(&off, call->off->bytes);
        int written = returned(&care, care_after) & returned(&value, value_after);
        if (answer != expected || !read || !written) {
            const char *what = !read ? "an input or its guard" : !written ? "a lent run or its guard" : "the answer";
            fail("glimmeldoek_list", what, way, answer, expected);
            printf("n %u, bytes: order %zu, on %zu, off %zu, care %zu, value %zu\n", (unsigned)call->n,
                   call->order->len, call->on->len, call->off->len, call->care_len, call->value_len);
            exit(1);
        }
        list_met[outcome.refusal]++;
    }
}

static int in_form(const struct pla_call *call)
{
    if (call->count > MAX_ROWS || call->count > shorter(call->care->len, call->value->len) / 4) {
        return 0;
    }
    for (size_t i = 0; i < call->count; i++) {
        uint32_t care = word_at(call->care, i);
        if (care >> call->n != 0 || (word_at(call->value, i) & ~care) != 0) {
            return 0;
        }
    }
    return 1;
}

/* The text's bytes and its length. */
static size_t put_text(const struct pla_call *call, char *text)
{
    size_t at = (size_t)sprintf(text, ".i %u\n.o 1\n.p %u\n", (unsigned)call->n, (unsigned)call->count);
    for (size_t i = 0; i < call->count; i++) {
        for (uint32_t v = 0; v < call->n; v++) {
            uint32_t cared = word_at(call->care, i) >> v & 1;
            text[at++] = cared == 0 ? '-' : (word_at(call->value, i) >> v & 1) == 1 ? '1' : '0';
        }
        at += (size_t)sprintf(text + at, " 1\n");
    }
    return at + (size_t)sprintf(text + at, ".e\n");
}

size_t text_length(const struct pla_call *call)
{
    char text[LENT_BYTES];
    return put_text(call, text);
}

/* The lowest refusal that applies, or else the text's length; puts the text where it is due. */
static struct outcome expected_pla(const struct pla_call *call)
{
    char text[LENT_BYTES];
    put_before(text_after, call->text_len);
    if (call->n < 1 || call->n > MAX_INPUTS) {
        return refused(1);
    }
    if (!in_form(call)) {
        return refused(8);
    }
    size_t length = put_text(call, text);
    if (length > call->text_len) {
        return refused(15);
    }
    memcpy(text_after, text, length);
    return (struct outcome){0, (uint32_t)length, {{0, 0}, {0, 0}}};
}

void pla(const struct pla_call *call)
{
    struct outcome outcome = expected_pla(call);
    uint64_t expected = ((uint64_t)outcome.refusal << 32) + outcome.payload;
    for (enum way way = EXACT; way < WAYS; way++) {
        struct lent care = lend(way, 0, call->care->bytes, call->care->len);
        struct lent value = lend(way, 1, call->value->bytes, call->value->len);
        struct lent text = lend(way, 2, before, call->text_len);
        uint64_t answer = glimmeldoek_pla(call->n, call->count, care.run, care.len, value.run, value.len, text.run,
                                          text.len);
        int read = returned(&care, call->care->bytes) & returned(&value, call->value->bytes);
        int written = returned(&text, text_after);
        if (answer != expected || !read || !written) {
            const char *what = !read ? "an input or its guard" : !written ? "a lent run or its guard" : "the answer";
            fail("glimmeldoek_pla", what, way, answer, expected);
            printf("n %u, count %u, bytes: care %zu, value %zu, text %zu\n", (unsigned)call->n, (unsigned)call->count,
                   call->care->len, call->value->len, call->text_len);
            exit(1);
        }
        pla_met[outcome.refusal]++;
    }
}

static int entry_met(const char *entry, const unsigned long *met, const uint32_t *numbers, size_t count)
{
    int all = met[0] > 0;
    printf("%s: %lu results", entry, met[0]);
    for (size_t i = 0; i < count; i++) {
        printf(", refused %u: %lu", (unsigned)numbers[i], met[numbers[i]]);
        all = all && met[numbers[i]] > 0;
    }
    printf("\n");
    return all;
}

int all_met(void)
{
    static const uint32_t list_numbers[] = {1, 2, 3, 4, 6, 7, 15};
    static const uint32_t pla_numbers[] = {1, 8, 15};
    int list_all = entry_met("glimmeldoek_list", list_met, list_numbers, 7);
    return entry_met("glimmeldoek_pla", pla_met, pla_numbers, 3) && list_all;
}
