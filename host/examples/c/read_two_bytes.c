/*
 * Reads two bytes from address 50 hexadecimal with the blocking engine, and prints the run as `busrun` does.
 *
 * List and readings are those of docs/FORMAT.md, "A blocking read, access by access", which tells what each is for.
 * Every buffer is an allocation of just its length, so that valgrind sees an access past its end.
 */
#include <inttypes.h>
#include <stdint.h>
#include <stdio.h>
#include <stdlib.h>
#include <string.h>

#include "vandhukril.h"

enum {
    PCLK1 = 36000000,
    SYSCLK = 72000000,
    STANDARD = 0,
    FREQUENCY = 100000,
    LIST_BYTES = 64 + 8 + 8, /* the header, one call, one operation; a read has no data */
    BYTES_TO_READ = 2,
    ACCESSES = 36 /* what this run makes; with less room it would end with VANDHUKRIL_NO_RECORD */
};

/* What the registers show, in the order in which the engine reads them. */
static const uint32_t shown[] = {
    0,                 /* CR1 in the bring-up: all off */
    1, 0xc350, 1,      /* CR1 before START; CYC; SR1: SB */
    1, 0xc620, 2,      /* SR1; CYC; SR1: ADDR */
    1, 2, 3, 0xc01,    /* CR1 before POS and ACK; SR1 and SR2; CR1 before ACK goes off */
    0xdfd4, 0,         /* CYC; SR1: no byte is there yet */
    0xf938, 0x40,      /* CYC; SR1: RXNE, the first byte */
    0x1129c, 0x44,     /* CYC; SR1: BTF, both bytes */
    0x801, 0x3c, 0xa5, /* CR1 before STOP; DR twice */
    0x11300, 0x801,    /* CYC; CR1: STOP is done */
    0x801, 1           /* CR1 before POS and ACK go off; CR1 before ACK comes on */
};

enum { READINGS = sizeof shown / sizeof shown[0] };

static void *buffer(size_t elements, size_t element_size)
{
    void *start = malloc(elements * element_size);
    if (start == NULL) {
        fputs("no memory\n", stderr);
        exit(EXIT_FAILURE);
    }
    return start;
}

/* A number of a list, low byte first. Answers where the next one goes. */
static uint8_t *put(uint8_t *at, int bytes, uint32_t number)
{
    for (int i = 0; i < bytes; i++) {
        at[i] = (uint8_t)(number >> (8 * i));
    }
    return at + bytes;
}

static void make_list(uint8_t *list)
{
    const uint32_t header[16] = {
        1, 64,               /* one call, from byte 64 */
        1, 72,               /* one operation, from byte 72 */
        0, 80,               /* no data, from byte 80 */
        PCLK1, SYSCLK,       /* hertz */
        STANDARD, FREQUENCY, /* hertz */
        1000, 3,             /* start timeout in microseconds, start retries */
        1000, 1000,          /* address timeout and data timeout in microseconds */
        0, 0
    };
    uint8_t *at = list;
    for (int i = 0; i < 16; i++) {
        at = put(at, 4, header[i]);
    }
    at = put(at, 1, 5);             /* the call: a blocking read */
    at = put(at, 1, 7);             /* seven-bit address */
    at = put(at, 2, 0x50);          /* address */
    at = put(at, 2, 0);             /* first operation */
    at = put(at, 2, 1);             /* number of operations */
    at = put(at, 1, 1);             /* the operation: a read */
    at = put(at, 1, 0);             /* always 0 */
    at = put(at, 2, BYTES_TO_READ); /* length */
    put(at, 4, 0);                  /* data offset: 0 for a read */
}

/* The words that the bring-up will write. Answers whether the settings have any. */
static int print_speed_words(void)
{
    uint32_t cr2 = speed_cr2(PCLK1, STANDARD, FREQUENCY);
    uint32_t trise = speed_trise(PCLK1, STANDARD, FREQUENCY);
    uint32_t ccr = speed_ccr(PCLK1, STANDARD, FREQUENCY);
    if (cr2 == VANDHUKRIL_NO_WORD || trise == VANDHUKRIL_NO_WORD || ccr == VANDHUKRIL_NO_WORD) {
        fputs("no speed words: the mode or the frequency is out of range\n", stderr);
        return 0;
    }
    printf("speed words: cr2 %04" PRIx32 ", trise %04" PRIx32 ", ccr %04" PRIx32 "\n", cr2, trise, ccr);
    return 1;
}

static const char *register_name(uint32_t code)
{
    switch (code) {
    case VANDHUKRIL_READ_SR1:
    case VANDHUKRIL_WRITE_SR1:
        return "sr1";
    case VANDHUKRIL_READ_SR2:
        return "sr2";
    case VANDHUKRIL_READ_CR1:
    case VANDHUKRIL_WRITE_CR1:
        return "cr1";
    case VANDHUKRIL_READ_DR:
    case VANDHUKRIL_WRITE_DR:
        return "dr";
    case VANDHUKRIL_READ_CYC:
        return "cyc";
    case VANDHUKRIL_WRITE_CR2:
        return "cr2";
    case VANDHUKRIL_WRITE_CCR:
        return "ccr";
    case VANDHUKRIL_WRITE_TRISE:
        return "trise";
    }
    return "?"; /* no access has another code */
}

static void print_access(uint32_t code, uint32_t value)
{
    char direction = code < VANDHUKRIL_WRITE_CR1 ? 'r' : 'w';
    int digits = code == VANDHUKRIL_READ_CYC ? 8 : 4;
    printf("%c %s %0*" PRIx32 "\n", direction, register_name(code), digits, value);
}

static void print_run(const uint8_t *received, const uint32_t *record, const uint64_t *counts)
{
    for (uint64_t k = 0; k < counts[VANDHUKRIL_COUNT_ACCESSES]; k++) {
        const uint32_t *access = record + VANDHUKRIL_ACCESS_WORDS * k;
        print_access(access[0], access[1]);
    }
    if (counts[VANDHUKRIL_COUNT_RECEIVED] > 0) {
        printf("rx");
        for (uint64_t i = 0; i < counts[VANDHUKRIL_COUNT_RECEIVED]; i++) {
            printf(" %02x", received[i]);
        }
        printf("\n");
    }
    printf("end");
    for (int i = 0; i < VANDHUKRIL_COUNTS; i++) {
        printf(" %" PRIu64, counts[i]);
    }
    printf("\n");
}

int main(void)
{
    uint8_t *list = buffer(LIST_BYTES, sizeof *list);
    uint32_t *readings = buffer(READINGS, sizeof *readings);
    uint8_t *received = buffer(BYTES_TO_READ, sizeof *received);
    uint32_t *record = buffer(VANDHUKRIL_ACCESS_WORDS * ACCESSES, sizeof *record);
    uint64_t *counts = buffer(VANDHUKRIL_COUNTS, sizeof *counts);
    int well = print_speed_words();

    make_list(list);
    memcpy(readings, shown, sizeof shown);
    bus_run(list, LIST_BYTES, readings, READINGS, received, BYTES_TO_READ,
            record, VANDHUKRIL_ACCESS_WORDS * ACCESSES, counts);
    print_run(received, record, counts);
    if (counts[VANDHUKRIL_COUNT_ANSWER] != VANDHUKRIL_WELL) {
        fprintf(stderr, "the run did not end well: answer %" PRIu64 "\n", counts[VANDHUKRIL_COUNT_ANSWER]);
        well = 0;
    }

    free(counts);
    free(record);
    free(received);
    free(readings);
    free(list);
    return well ? EXIT_SUCCESS : EXIT_FAILURE;
}
