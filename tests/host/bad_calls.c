/* Calls that a host may get wrong, held to document 01: runs of 0 to 7 bytes, null runs, n out of reach, orders and
 * sheets not in form, rooms too small.
 */
#include "expected.h"

#include <stdio.h>

enum { LENGTHS = 8 };

static const uint32_t reaches[] = {0, 1, 2, 24, 25, 4294967295u};

static const struct outcome no_rows = {0, 0, {{0, 0}, {0, 0}}};
static const struct outcome one_dashed_row = {0, 1, {{0, 0}, {0, 0}}};

/* On or off nothing: a sheet of one empty clause. */
static const int32_t zero[] = {0};

/* The outcome of a sheet without numbers or of one empty clause beside another such sheet. */
static struct outcome of_short_sheets(const struct run *on, const struct run *off)
{
    if (on->len == 4) {
        return no_rows;
    }
    if (off->len == 4) {
        return one_dashed_row;
    }
    return (struct outcome){6, 0, {{0, 0}, {0, 0}}};
}

/* Every run with each length from 0 to 7, the order up to 8; a sheet's word is the one given. */
static void every_length(uint32_t n, int32_t on_word, int32_t off_word)
{
    static struct run order, on, off;
    upward(&order, 2);
    set(&on, (int32_t[]){on_word, 0}, 2);
    set(&off, (int32_t[]){off_word, 0}, 2);
    for (size_t code = 0; code < (LENGTHS + 1) * LENGTHS * LENGTHS * LENGTHS * LENGTHS; code++) {
        size_t care_len = code % LENGTHS, value_len = code / LENGTHS % LENGTHS;
        on.len = code / 64 % LENGTHS;
        off.len = code / 512 % LENGTHS;
        order.len = code / 4096;
        struct outcome outcome = of_short_sheets(&on, &off);
        list(&(struct list_call){n, &order, &on, &off, care_len, value_len}, &outcome);
    }
}

/* An order with 0 to 3 bytes left over, for sheets without rows. */
static void order_left_over(uint32_t n, struct run *order)
{
    static struct run nothing;
    set(&nothing, zero, 1);
    size_t whole = order->len;
    for (size_t over = 0; over < 4; over++) {
        order->len = whole + over;
        list(&(struct list_call){n, order, &nothing, &nothing, 0, 0}, &no_rows);
    }
    order->len = whole;
}

/* All runs of up to n + 1 words from 0 to n + 1, for n up to 3. */
static void short_orders(void)
{
    static struct run order;
    for (uint32_t n = 1; n <= 3; n++) {
        for (uint32_t words = 0; words <= n + 1; words++) {
            uint32_t all = 1;
            for (uint32_t i = 0; i < words; i++) {
                all *= n + 2;
            }
            for (uint32_t code = 0; code < all; code++) {
                order.len = 0;
                for (uint32_t left = code, i = 0; i < words; i++, left /= n + 2) {
                    put(&order, left % (n + 2));
                }
                order_left_over(n, &order);
            }
        }
    }
}

/* Orders of 24 with one word changed: each to each of these numbers. */
static void long_orders(void)
{
    static const int32_t others[] = {0, 1, 2, 12, 23, 24, 25, 31, 32, 33, 257, 16777217, -1, -24, INT32_MIN};
    static struct run order;
    int32_t numbers[MAX_INPUTS];
    for (size_t place = 0; place < MAX_INPUTS; place++) {
        for (size_t other = 0; other < sizeof others / sizeof others[0]; other++) {
            for (int32_t i = 0; i < MAX_INPUTS; i++) {
                numbers[i] = i + 1;
            }
            numbers[place] = others[other];
            set(&order, numbers, MAX_INPUTS);
            order_left_over(MAX_INPUTS, &order);
        }
    }
    downward(&order, MAX_INPUTS);
    order_left_over(MAX_INPUTS, &order);
    order_left_over(MAX_INPUTS - 1, &order);
}

/* A sheet beside an off sheet without settings, then beside such an on sheet; with 0 to 3 bytes left over. */
static void sheet(uint32_t n, struct run *run, int some_setting)
{
    static struct run order, nothing;
    upward(&order, n);
    set(&nothing, zero, 1);
    size_t whole = run->len;
    for (size_t over = 0; over < 4; over++) {
        run->len = whole + over;
        list(&(struct list_call){n, &order, run, &nothing, 4, 7}, some_setting ? &one_dashed_row : &no_rows);
        list(&(struct list_call){n, &order, &nothing, run, 3, 0}, &no_rows);
    }
    run->len = whole;
}

static int some_clause_empty(const int32_t *numbers, size_t count)
{
    for (size_t i = 0; i < count; i++) {
        if (numbers[i] == 0 && (i == 0 || numbers[i - 1] == 0)) {
            return 1;
        }
    }
    return 0;
}

/* Short sheets of three inputs. Those that are well formed have a setting unless some clause is empty. */
static void short_sheets(void)
{
    static const int32_t sheets[][4] = {
        {0},          {1, 0},        {3, 0},         {-3, 0},        {4, 0},         {-4, 0},        {3},
        {0, 3},       {1, 0, 3},     {1, -1, 0},     {2, 2, 0},      {256, 0},       {0, 0, 0, 0},   {1, 2, 3, 0},
        {1, 0, 4, 0}, {1, 0, -2, 0}, {INT32_MIN},    {INT32_MIN, 0}, {INT32_MAX, 0}, {-INT32_MAX, 0},
    };
    static struct run run;
    for (size_t i = 0; i < sizeof sheets / sizeof sheets[0]; i++) {
        for (size_t count = 0; count <= 4; count++) {
            set(&run, sheets[i], count);
            sheet(3, &run, !some_clause_empty(sheets[i], count));
        }
    }
}

/* Sheets at their limits, and one number or one clause past them. */
static void long_sheets(void)
{
    static struct run run;
    of_one_setting(&run, MAX_INPUTS, -1);
    fill(&run);
    sheet(MAX_INPUTS, &run, 1);
    put(&run, 0);
    sheet(MAX_INPUTS, &run, 0);
    of_parity(&run, 3, 9, 1);
    fill(&run);
    sheet(MAX_INPUTS, &run, 1);
    put(&run, 0);
    sheet(MAX_INPUTS, &run, 0);
    run.len = 0;
    for (size_t i = 0; i < MAX_CLAUSES; i++) {
        put(&run, 0);
    }
    sheet(1, &run, 0);
    put(&run, 0);
    sheet(1, &run, 0);
}

/* P5, P10 and the parity of ten in each pair of rooms up to 11 bytes. */
static void rooms(void)
{
    static const struct outcome p5 = {0, 2, {{5, 0}, {3, 1}}};
    static const struct outcome p10 = {6, 3, {{0, 0}, {0, 0}}};
    static const struct outcome too_many = {7, 0, {{0, 0}, {0, 0}}};
    static struct run order2, order3, order10, on5, off5, on10, off10, odd, even;
    upward(&order2, 2);
    upward(&order3, 3);
    upward(&order10, 10);
    set(&on5, (int32_t[]){-1, -2, 0, 1, -3, 0}, 6);
    set(&off5, (int32_t[]){-1, 2, 0, 1, 3, 0}, 6);
    set(&on10, (int32_t[]){1, 0}, 2);
    set(&off10, (int32_t[]){2, 0}, 2);
    of_parity(&odd, 1, 10, 1);
    of_parity(&even, 1, 10, 0);
    for (size_t care_len = 0; care_len < 12; care_len++) {
        for (size_t value_len = 0; value_len < 12; value_len++) {
            list(&(struct list_call){3, &order3, &on5, &off5, care_len, value_len}, &p5);
            list(&(struct list_call){2, &order2, &on10, &off10, care_len, value_len}, &p10);
        }
    }
    list(&(struct list_call){10, &order10, &odd, &even, 0, 7}, &too_many);
    list(&(struct list_call){10, &order10, &odd, &even, 1024, 1024}, &too_many);
}

/* Texts of up to two rows of these words, all runs of 0 to 7 bytes, and the text's rooms about its length. */
static void short_texts(uint32_t n, uint32_t count, uint32_t care_word, uint32_t value_word)
{
    static struct run care, value;
    set(&care, (int32_t[]){(int32_t)care_word, 0}, 2);
    set(&value, (int32_t[]){(int32_t)value_word, 0}, 2);
    for (size_t code = 0; code < LENGTHS * LENGTHS * LENGTHS; code++) {
        care.len = code % LENGTHS;
        value.len = code / LENGTHS % LENGTHS;
        pla(&(struct pla_call){n, count, &care, &value, code / 64});
    }
    care.len = value.len = 8;
    struct pla_call call = {n, count, &care, &value, 64};
    size_t length = n <= MAX_INPUTS && count <= 2 ? text_length(&call) : 64;
    for (call.text_len = length - 1; call.text_len <= length + 1; call.text_len++) {
        pla(&call);
    }
}

/* Rows in form and not, for every n and count. */
static void texts_of_few_rows(void)
{
    static const uint32_t counts[] = {0, 1, 2, 3, 256, 257, 4294967295u};
    static const struct row rows[] = {
        {0, 0}, {1, 0}, {1, 1}, {0, 1}, {2, 2}, {3, 4}, {0x1000000, 0}, {0xffffff, 0}, {0x80000001, 0},
    };
    for (size_t n = 0; n < sizeof reaches / sizeof reaches[0]; n++) {
        for (size_t count = 0; count < sizeof counts / sizeof counts[0]; count++) {
            for (size_t row = 0; row < sizeof rows / sizeof rows[0]; row++) {
                short_texts(reaches[n], counts[count], rows[row].care, rows[row].value);
            }
        }
    }
}

/* The longest text in its room and one short; its last row not in form; one row more. */
static void long_texts(void)
{
    static struct run care, value;
    care.len = value.len = 0;
    for (uint32_t i = 0; i < MAX_ROWS + 1; i++) {
        put(&care, 0xffffff - i);
        put(&value, 0x555555 & (0xffffff - i));
    }
    pla(&(struct pla_call){MAX_INPUTS, MAX_ROWS, &care, &value, LONGEST_TEXT});
    pla(&(struct pla_call){MAX_INPUTS, MAX_ROWS, &care, &value, LONGEST_TEXT - 1});
    pla(&(struct pla_call){MAX_INPUTS, MAX_ROWS + 1, &care, &value, LONGEST_TEXT});
    pla(&(struct pla_call){MAX_INPUTS - 1, MAX_ROWS, &care, &value, LONGEST_TEXT});
    value.bytes[4 * MAX_ROWS - 1] = 128;
    pla(&(struct pla_call){MAX_INPUTS, MAX_ROWS, &care, &value, LONGEST_TEXT});
    pla(&(struct pla_call){MAX_INPUTS, MAX_ROWS - 1, &care, &value, LONGEST_TEXT});
}

int main(void)
{
    for (size_t n = 0; n < sizeof reaches / sizeof reaches[0]; n++) {
        every_length(reaches[n], 0, 0);
    }
    every_length(1, 1, 0);
    every_length(1, 0, INT32_MIN);
    short_orders();
    long_orders();
    short_sheets();
    long_sheets();
    rooms();
    texts_of_few_rows();
    long_texts();
    return all_met() ? 0 : 1;
}
