/* A main loop in C, by sdcc: records in a list, text, a sort, sums and products of 32 bits, again and again. See compiled.s for how it begins. */
#include <stdint.h>

struct record {
    struct record *next;
    uint16_t number;
    uint8_t kind;
    char name[11];
};

static struct record records[12];
static struct record *first;
static uint8_t order[32];
static uint32_t sum;
static uint8_t found;

static void copy(char *to, const char *from)
{
    while ((*to++ = *from++) != 0)
        ;
}

static int8_t compare(const char *one, const char *other)
{
    while (*one && *one == *other) {
        one++;
        other++;
    }
    return (int8_t)(*one - *other);
}

static void make(void)
{
    uint8_t k;
    first = 0;
    for (k = 0; k < 12; k++) {
        struct record *record = &records[k];
        record->next = first;
        record->number = (uint16_t)(k * 77);
        record->kind = k & 3;
        copy(record->name, k & 1 ? "SOME STRING" + 1 : "SAME STRING" + 1);
        record->name[9] = 'A' + k;
        first = record;
    }
}

static void search(void)
{
    const struct record *record;
    for (record = first; record; record = record->next)
        if (compare(record->name, "OME STRINJ") == 0 && record->kind != 2)
            found++;
}

static void sort(void)
{
    uint8_t k, j;
    for (k = 0; k < 32; k++)
        order[k] = (uint8_t)(k * 37 + found);
    for (k = 1; k < 32; k++) {
        uint8_t value = order[k];
        for (j = k; j && order[j - 1] > value; j--)
            order[j] = order[j - 1];
        order[j] = value;
    }
}

static void products(void)
{
    uint8_t k;
    for (k = 1; k < 10; k++)
        sum += sum * (uint32_t)(order[k] + k) + records[k].number / k;
}

void main(void)
{
    sum = 12345;
    for (;;) {
        make();
        search();
        sort();
        products();
    }
}
