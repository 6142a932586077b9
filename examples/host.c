/* A host: builds the list of two sheets and prints its PLA text, then shows how a refusal is read.
 *
 * It prints the text of the sheets of P5, and for those of P10 `refused 6 11`.
 */
#include "glimmeldoek.h"

#include <stdio.h>

enum { MAX_INPUTS = 24, MAX_NUMBERS = 64, LIST_BYTES = 1024, TEXT_BYTES = 6933 };

struct sheet {
    const int32_t *numbers;
    size_t count;
};

/* Puts the numbers as words of four bytes, lowest first, and returns how many bytes they take. */
static size_t put_words(const int32_t *numbers, size_t count, uint8_t *bytes)
{
    for (size_t k = 0; k < count; k++) {
        uint32_t word = (uint32_t)numbers[k];
        for (size_t i = 0; i < 4; i++) {
            bytes[4 * k + i] = (uint8_t)(word >> (8 * i));
        }
    }
    return 4 * count;
}

/* Prints `refused`, the number, and for a collision the setting, variable 1 first. */
static void print_refusal(uint32_t n, uint64_t answer)
{
    printf("refused %u", (unsigned)glimmeldoek_refusal_of(answer));
    if (glimmeldoek_refusal_of(answer) == GLIMMELDOEK_COLLISION) {
        putchar(' ');
        for (uint32_t i = 0; i < n; i++) {
            putchar((glimmeldoek_payload_of(answer) >> i) % 2 == 1 ? '1' : '0');
        }
    }
    putchar('\n');
}

/* Prints the PLA text of the sheets' list in the order 1..n, or the refusal, whose number it returns. */
static uint32_t print_list(uint32_t n, struct sheet on, struct sheet off)
{
    int32_t natural[MAX_INPUTS];
    for (uint32_t i = 0; i < n; i++) {
        natural[i] = (int32_t)(i + 1);
    }
    uint8_t order[4 * MAX_INPUTS];
    uint8_t on_bytes[4 * MAX_NUMBERS];
    uint8_t off_bytes[4 * MAX_NUMBERS];
    size_t order_len = put_words(natural, n, order);
    size_t on_len = put_words(on.numbers, on.count, on_bytes);
    size_t off_len = put_words(off.numbers, off.count, off_bytes);

    uint8_t care[LIST_BYTES];
    uint8_t value[LIST_BYTES];
    uint64_t answer = glimmeldoek_list(n, order, order_len, on_bytes, on_len, off_bytes, off_len, care, sizeof care,
                                       value, sizeof value);
    if (glimmeldoek_refusal_of(answer) != GLIMMELDOEK_NONE) {
        print_refusal(n, answer);
        return glimmeldoek_refusal_of(answer);
    }

    uint32_t count = glimmeldoek_payload_of(answer);
    static uint8_t text[TEXT_BYTES];
    answer = glimmeldoek_pla(n, count, care, sizeof care, value, sizeof value, text, sizeof text);
    if (glimmeldoek_refusal_of(answer) != GLIMMELDOEK_NONE) {
        print_refusal(n, answer);
        return glimmeldoek_refusal_of(answer);
    }
    fwrite(text, 1, glimmeldoek_payload_of(answer), stdout);
    return GLIMMELDOEK_NONE;
}

int main(void)
{
    static const int32_t on5[] = {-1, -2, 0, 1, -3, 0};
    static const int32_t off5[] = {-1, 2, 0, 1, 3, 0};
    struct sheet on = {on5, sizeof on5 / sizeof on5[0]};
    struct sheet off = {off5, sizeof off5 / sizeof off5[0]};
    if (print_list(3, on, off) != GLIMMELDOEK_NONE) {
        return 1;
    }

    static const int32_t on10[] = {1, 0};
    static const int32_t off10[] = {2, 0};
    struct sheet colliding_on = {on10, sizeof on10 / sizeof on10[0]};
    struct sheet colliding_off = {off10, sizeof off10 / sizeof off10[0]};
    if (print_list(2, colliding_on, colliding_off) != GLIMMELDOEK_COLLISION) {
        return 1;
    }
    return 0;
}
