/* The stack that each entry needs. An entry runs on a stack of its own, painted before the call. Its figure is the way
 * from the frame of its caller, the arguments with it, down to the lowest byte that changed under either of two paints.
 */
#define _XOPEN_SOURCE 700

#include "glimmeldoek.h"
#include "sheets.h"

#include <stdio.h>
#include <stdlib.h>
#include <string.h>
#include <ucontext.h>

enum { LIMIT = 8192, STACK_BYTES = 65536 };

static const uint8_t paints[] = {0xa5, 0x5a};

/* The call that is measured, and its answer. */
static struct {
    uint32_t n, count;
    struct run order, on, off, care, value;
    uint8_t text[LONGEST_TEXT];
    size_t text_len;
    uint64_t answer;
    uint8_t *frame;
} it;

static void call_list(void)
{
    it.frame = __builtin_frame_address(0);
    it.answer = glimmeldoek_list(it.n, it.order.bytes, it.order.len, it.on.bytes, it.on.len, it.off.bytes, it.off.len,
                                 it.care.bytes, it.care.len, it.value.bytes, it.value.len);
}

static void call_pla(void)
{
    it.frame = __builtin_frame_address(0);
    it.answer = glimmeldoek_pla(it.n, it.count, it.care.bytes, it.care.len, it.value.bytes, it.value.len, it.text,
                                it.text_len);
}

/* Calls on a stack of this paint, and gives the bytes that the call changed of it. */
static size_t used(void (*call)(void), uint8_t paint)
{
    static uint8_t stack[STACK_BYTES];
    static ucontext_t here, there;
    memset(stack, paint, sizeof stack);
    if (getcontext(&there) != 0) {
        abort();
    }
    there.uc_stack.ss_sp = stack;
    there.uc_stack.ss_size = sizeof stack;
    there.uc_link = &here;
    makecontext(&there, call, 0);
    if (swapcontext(&here, &there) != 0) {
        abort();
    }
    size_t lowest = 0;
    while (lowest < sizeof stack && stack[lowest] == paint) {
        lowest++;
    }
    return (size_t)(it.frame - (stack + lowest));
}

/* What an entry needed at most, and for which input. */
struct figure {
    const char *entry;
    void (*call)(void);
    size_t most;
    const char *input;
};

static struct figure list = {"glimmeldoek_list", call_list, 0, ""};
static struct figure pla = {"glimmeldoek_pla", call_pla, 0, ""};

/* Measures a call that must be answered so. */
static void measure(struct figure *figure, const char *input, uint32_t refusal, uint32_t payload)
{
    size_t most = 0;
    for (size_t i = 0; i < sizeof paints; i++) {
        size_t bytes = used(figure->call, paints[i]);
        most = bytes > most ? bytes : most;
        if (glimmeldoek_refusal_of(it.answer) != refusal || glimmeldoek_payload_of(it.answer) != payload) {
            printf("%s, %s: answered %u, %u and not %u, %u\n", figure->entry, input,
                   (unsigned)glimmeldoek_refusal_of(it.answer), (unsigned)glimmeldoek_payload_of(it.answer),
                   (unsigned)refusal, (unsigned)payload);
            exit(1);
        }
    }
    printf("  %5zu  %s, %s\n", most, figure->entry, input);
    if (most > figure->most) {
        figure->most = most;
        figure->input = input;
    }
}

/* 24 inputs in the order 1..24, and room for every list. */
static void begin(void)
{
    it.n = MAX_INPUTS;
    upward(&it.order, it.n);
    it.care.len = it.value.len = 4 * MAX_ROWS;
}

/* Sheets at their limits; on is satisfied by all ones or all zeros alone, off by the same or the opposite. */
static void one_setting_each(void)
{
    begin();
    uint32_t ones = ((uint32_t)1 << MAX_INPUTS) - 1;
    of_one_setting(&it.on, it.n, 1);
    fill(&it.on);
    of_one_setting(&it.off, it.n, -1);
    fill(&it.off);
    measure(&list, "on all ones, off all zeros", GLIMMELDOEK_NONE, 1);
    downward(&it.order, it.n);
    measure(&list, "the same in the order 24..1", GLIMMELDOEK_NONE, 1);
    it.off = it.on;
    measure(&list, "a collision at all ones", GLIMMELDOEK_COLLISION, ones);
    it.care.len = it.value.len = 0;
    measure(&list, "the same without room", GLIMMELDOEK_COLLISION, ones);
    begin();
    of_one_setting(&it.on, it.n, -1);
    fill(&it.on);
    it.off = it.on;
    measure(&list, "a collision at all zeros", GLIMMELDOEK_COLLISION, 0);
    of_one_setting(&it.off, it.n, 1);
    fill(&it.off);
    measure(&list, "on all zeros, off all ones", GLIMMELDOEK_NONE, 1);
}

/* On fixes all but the last place, so that the search for the second row leaves the first on setting there alone. */
static void last_place_open(void)
{
    begin();
    of_one_setting(&it.on, it.n - 1, -1);
    fill(&it.on);
    of_one_setting(&it.off, it.n, 1);
    fill(&it.off);
    measure(&list, "on all zeros but for the last place", GLIMMELDOEK_NONE, 2);
}

/* On asks for every setting by 1,024 clauses with both signs, off for none by as many empty ones. */
static void every_setting(void)
{
    begin();
    it.on.len = it.off.len = 0;
    for (uint32_t i = 0; i < MAX_CLAUSES; i++) {
        uint32_t v = i % it.n + 1;
        put(&it.on, v);
        put(&it.on, 0 - v);
        put(&it.on, 0);
        put(&it.off, 0);
    }
    measure(&list, "on every setting, off none", GLIMMELDOEK_NONE, 1);
    struct run on = it.on;
    it.on = it.off;
    it.off = on;
    measure(&list, "on none, off every setting", GLIMMELDOEK_NONE, 0);
    it.on = it.off;
    measure(&list, "on and off every setting", GLIMMELDOEK_COLLISION, 0);
}

/* Sheets of 8,192 numbers for the parity of nine variables, and of 5,632 for that of ten. The order has them first:
 * the search goes through every setting of the variables before them.
 */
static void parities(uint32_t first, const char *nine, const char *ten, const char *no_room)
{
    begin();
    if (first > 1) {
        downward(&it.order, it.n);
    }
    of_parity(&it.on, first, 9, 1);
    fill(&it.on);
    of_parity(&it.off, first, 9, 0);
    fill(&it.off);
    measure(&list, nine, GLIMMELDOEK_NONE, MAX_ROWS);
    it.value.len--;
    measure(&list, no_room, GLIMMELDOEK_ROOM, 0);
    it.value.len++;
    of_parity(&it.on, first, 10, 1);
    of_parity(&it.off, first, 10, 0);
    measure(&list, ten, GLIMMELDOEK_TOO_MANY_ROWS, 0);
}

/* Refusals of input that is not in form; each sheet is full and wrong at its end alone. */
static void list_refusals(void)
{
    begin();
    of_one_setting(&it.on, it.n, 1);
    fill(&it.on);
    it.off = it.on;
    it.n = 0;
    measure(&list, "n is 0", GLIMMELDOEK_INPUTS, 0);
    it.n = MAX_INPUTS + 1;
    measure(&list, "n is 25", GLIMMELDOEK_INPUTS, 0);
    it.n = MAX_INPUTS;
    it.order.bytes[4 * (MAX_INPUTS - 1)] = 1;
    measure(&list, "1 twice in the order", GLIMMELDOEK_ORDER, 0);
    upward(&it.order, it.n);
    it.on.bytes[it.on.len - 4] = 1;
    measure(&list, "the on sheet is not closed", GLIMMELDOEK_ON_SHEET, 0);
    it.on.bytes[it.on.len - 4] = 0;
    put(&it.off, 0);
    measure(&list, "the off sheet is too long", GLIMMELDOEK_OFF_SHEET, 0);
}

/* The longest text, and the refusals. */
static void texts(void)
{
    it.n = MAX_INPUTS;
    it.count = MAX_ROWS;
    it.text_len = LONGEST_TEXT;
    it.care.len = it.value.len = 0;
    for (uint32_t i = 0; i < MAX_ROWS; i++) {
        put(&it.care, 0xffffff - i);
        put(&it.value, 0xaaaaaa & (0xffffff - i));
    }
    measure(&pla, "256 rows of 24 inputs", GLIMMELDOEK_NONE, LONGEST_TEXT);
    it.text_len--;
    measure(&pla, "the same in a room one short", GLIMMELDOEK_ROOM, 0);
    it.care.bytes[it.care.len - 1] = 1;
    measure(&pla, "a care bit of variable 25 in the last row", GLIMMELDOEK_GIVEN_LIST, 0);
    it.count++;
    measure(&pla, "257 rows", GLIMMELDOEK_GIVEN_LIST, 0);
    it.count = 0;
    measure(&pla, "no rows", GLIMMELDOEK_NONE, 19);
    it.n++;
    measure(&pla, "n is 25", GLIMMELDOEK_INPUTS, 0);
}

/* Prints the figure, and says whether it is within the limit. */
static int within(const struct figure *figure)
{
    printf("%s: %zu bytes of stack at most (%s), limit %d\n", figure->entry, figure->most, figure->input, LIMIT);
    return figure->most > 0 && figure->most <= LIMIT;
}

int main(void)
{
    one_setting_each();
    last_place_open();
    every_setting();
    parities(1, "parity of the first 9", "parity of the first 10", "parity of the first 9, room for 255 rows");
    parities(15, "parity of 15..23", "parity of 15..24", "parity of 15..23, room for 255 rows");
    list_refusals();
    texts();
    int list_within = within(&list);
    return within(&pla) && list_within ? 0 : 1;
}
