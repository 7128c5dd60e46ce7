/*
 * The proved I2C master engine for programs in C (C99 or later) and C++ (C++11 or later).
 *
 * These are the functions of libengine.a, which `host/library` writes to target/staticlib. It is machine code
 * for x86-64 Linux and calls nothing outside itself. host/examples/c has a program, README.md ("C hosts") the commands.
 * What a bus list, a reading and a record are is told in docs/FORMAT.md.
 *
 * Each function always returns. It keeps no state, and it reads and writes nothing but what it is handed. What it
 * answers is proved for every input (docs/PROOF.md). That these declarations are the library's is tested (tests/chost).
 */
#ifndef VANDHUKRIL_H
#define VANDHUKRIL_H

#include <stddef.h>
#include <stdint.h>

/* The library takes lengths of 64 bits. */
#if defined __cplusplus
static_assert(sizeof(size_t) == 8, "libengine.a is for x86-64: size_t has to have 64 bits");
#elif defined __STDC_VERSION__ && __STDC_VERSION__ >= 201112L
_Static_assert(sizeof(size_t) == 8, "libengine.a is for x86-64: size_t has to have 64 bits");
#else
typedef char vandhukril_size_t_has_64_bits[sizeof(size_t) == 8 ? 1 : -1];
#endif

#ifdef __cplusplus
extern "C" {
#endif

/* How a run ended. From 20 on the list was refused before any access; the first cause that applies is the answer. */
enum vandhukril_answer {
    VANDHUKRIL_WELL = 0,                     /* every call ended well */
    VANDHUKRIL_OVERRUN = 1,                  /* OVR was set, or a polling call ends in a read of length 0 */
    VANDHUKRIL_NO_ACKNOWLEDGE_ADDRESS = 2,   /* AF: the address; in a polling write also before a byte is sent */
    VANDHUKRIL_NO_ACKNOWLEDGE_DATA = 3,      /* AF: a data byte */
    VANDHUKRIL_NO_ACKNOWLEDGE_UNKNOWN = 4,   /* AF before an address was sent */
    VANDHUKRIL_TIMEOUT = 5,                  /* TIMEOUT in a polling call, or a blocking wait reached its limit */
    VANDHUKRIL_BUS = 6,                      /* BERR was set in a blocking call */
    VANDHUKRIL_CRC = 7,                      /* PECERR was set in a polling call */
    VANDHUKRIL_ARBITRATION_LOSS = 8,         /* ARLO was set */
    VANDHUKRIL_NO_READINGS = 9,              /* the next access is a read and every reading is used */
    VANDHUKRIL_NO_RECORD = 10,               /* fewer than two record words remain for the next access */
    VANDHUKRIL_REFUSED_FORM = 20,            /* the list is not of the form */
    VANDHUKRIL_REFUSED_LIMIT = 21,           /* over 32,768 bytes, 256 calls, 1,024 operations or 258 bytes in one */
    VANDHUKRIL_REFUSED_FREQUENCY = 22,       /* the frequency is 0 or above 400,000 Hz */
    VANDHUKRIL_REFUSED_TIMEOUT = 23,         /* a timeout is too long for 32 bits of cycles */
    VANDHUKRIL_REFUSED_ADDRESS = 24,         /* seven-bit above 127, ten-bit above 1023, or a ten-bit blocking call */
    VANDHUKRIL_REFUSED_EMPTY_BLOCKING = 25,  /* a blocking write or a blocking read has length 0 */
    VANDHUKRIL_REFUSED_RECEIVED_BUFFER = 26, /* all reads together are longer than the received buffer */
    VANDHUKRIL_REFUSED_WRITE_AFTER_READ = 27 /* a blocking transaction has a read, then a write, empty ones left out */
};

/*
 * The most bytes that one operation of a bus list may have, read or written. A transaction joins neighbours of one
 * direction, so it takes a longer read or write in parts.
 */
enum { VANDHUKRIL_LONGEST_OPERATION = 258 };

/* The first word of an access: which register, read or written. The codes of reads are below those of writes. */
enum vandhukril_code {
    VANDHUKRIL_READ_SR1 = 1,
    VANDHUKRIL_READ_SR2 = 2,
    VANDHUKRIL_READ_CR1 = 3,
    VANDHUKRIL_READ_DR = 4,
    VANDHUKRIL_READ_CYC = 5, /* the cycle counter, the only one with 32 bits; all others have 16 */
    VANDHUKRIL_WRITE_CR1 = 11,
    VANDHUKRIL_WRITE_CR2 = 12,
    VANDHUKRIL_WRITE_CCR = 13,
    VANDHUKRIL_WRITE_TRISE = 14,
    VANDHUKRIL_WRITE_SR1 = 15, /* 0 before START, else the word that clears one flag (docs/FORMAT.md) */
    VANDHUKRIL_WRITE_DR = 16
};

/* The words of one access in a record: its code, then its value. */
enum { VANDHUKRIL_ACCESS_WORDS = 2 };

/* Where each number of a run stands in its counts, and how many there are. */
enum vandhukril_count {
    VANDHUKRIL_COUNT_ANSWER = 0,   /* how the run ended: an enum vandhukril_answer */
    VANDHUKRIL_COUNT_CALLS = 1,    /* calls ended well */
    VANDHUKRIL_COUNT_READINGS = 2, /* readings used, from the first on: one for each read */
    VANDHUKRIL_COUNT_ACCESSES = 3, /* accesses made, reads and writes */
    VANDHUKRIL_COUNT_RECEIVED = 4, /* bytes received: one for each read of DR */
    VANDHUKRIL_COUNTS = 5
};

/*
 * Runs a bus list on these readings: the bring-up, then the calls in order, until one does not end well.
 *
 *   list      read      the bytes of the bus list
 *   readings  read      what the registers show, in the order in which they are read
 *   received  written   the bytes received, from the start
 *   record    written   the accesses made, VANDHUKRIL_ACCESS_WORDS words each, from the start
 *   counts    written   the answer and the four counts, all five in every call
 *
 * A length is a number of elements, not of bytes. Each may be 0. Any bytes may be handed over as a list, and any words
 * as readings: what cannot be run is told by the answer.
 *
 * `received` past the bytes received and `record` past the accesses made are left as they were. With an answer from
 * 20 on that is all of both, and the four counts are 0.
 *
 * The caller sees to it that
 *
 * - each pointer points to as many elements as its length says, aligned for their type;
 * - no pointer is null. Where a length is 0, nothing is read or written through its pointer, so the address of any
 *   object of the type will do;
 * - list and readings are initialised. The other three are only written, and need not be;
 * - `received`, `record` and `counts` overlap neither each other nor the list nor the readings;
 * - until the call returns, no other thread writes to any of the five, or reads one of those three.
 *
 * So calls from several threads at once may share a list and readings, each with its own received bytes, record and
 * counts.
 */
void bus_run(const uint8_t *list, size_t list_length,
             const uint32_t *readings, size_t readings_length,
             uint8_t *received, size_t received_length,
             uint32_t *record, size_t record_length,
             uint64_t counts[VANDHUKRIL_COUNTS]);

/* What stands for a speed word where there is none. */
#define VANDHUKRIL_NO_WORD UINT32_C(4294967295)

/*
 * The speed words of settings: what the bring-up writes to CR2, TRISE and CCR.
 *
 * pclk1 and the frequency are in hertz. The mode is 0 Standard, 1 Fast 2:1 or 2 Fast 16:9. Each word is below 65,536,
 * or it is VANDHUKRIL_NO_WORD: where the frequency is 0 or above 400,000, with which a list is refused with 22, and
 * where the mode is above 2. Every pclk1 has its words, 0 too.
 */
uint32_t speed_cr2(uint32_t pclk1, uint32_t mode, uint32_t frequency);
uint32_t speed_trise(uint32_t pclk1, uint32_t mode, uint32_t frequency);
uint32_t speed_ccr(uint32_t pclk1, uint32_t mode, uint32_t frequency);

/* The usual speeds of a clock, in the order of their table: the mode, and the frequency in kilohertz. And how many. */
enum vandhukril_speed {
    VANDHUKRIL_STANDARD_10 = 0,
    VANDHUKRIL_STANDARD_20 = 1,
    VANDHUKRIL_STANDARD_50 = 2,
    VANDHUKRIL_STANDARD_100 = 3,
    VANDHUKRIL_FAST_2_1_125 = 4,
    VANDHUKRIL_FAST_2_1_200 = 5,
    VANDHUKRIL_FAST_2_1_250 = 6,
    VANDHUKRIL_FAST_2_1_400 = 7,
    VANDHUKRIL_FAST_16_9_125 = 8,
    VANDHUKRIL_FAST_16_9_200 = 9,
    VANDHUKRIL_FAST_16_9_250 = 10,
    VANDHUKRIL_FAST_16_9_400 = 11,
    VANDHUKRIL_SPEEDS = 12
};

/* The clocks of the table: pclk1 in whole megahertz, from the least to the most. And how many words it has. */
enum {
    VANDHUKRIL_LEAST_MHZ = 2,
    VANDHUKRIL_MOST_MHZ = 36,
    VANDHUKRIL_SPEED_WORDS = 420
};

/*
 * The CCR word of a usual speed: what speed_ccr answers for it, out of a constant table.
 *
 * The index is VANDHUKRIL_SPEEDS * (megahertz - VANDHUKRIL_LEAST_MHZ) + speed, of an enum vandhukril_speed: a larger
 * speed would be one of a later clock. From VANDHUKRIL_SPEED_WORDS on there is no word, and the answer is
 * VANDHUKRIL_NO_WORD. Any other clock or frequency has its word by speed_ccr.
 */
uint32_t speed_table(uint32_t index);

/* Where each number of a chosen speed stands, and how many there are. */
enum vandhukril_chosen {
    VANDHUKRIL_CHOSEN_ANSWER = 0, /* 0, or why there is no speed: an enum vandhukril_no_choice */
    VANDHUKRIL_CHOSEN_MODE = 1,   /* 0 Standard, 1 Fast 2:1, 2 Fast 16:9 */
    VANDHUKRIL_CHOSEN_FIELD = 2,  /* the CCR field: 4 to 4095 in Standard, 1 to 4095 in Fast */
    VANDHUKRIL_CHOSEN = 3
};

/* Why there is no speed under a ceiling. */
enum vandhukril_no_choice {
    VANDHUKRIL_NO_CHOICE_CEILING = 22,  /* the ceiling is 0 or above 400,000 Hz */
    VANDHUKRIL_NO_CHOICE_NONE_FITS = 28 /* no mode and field fit: pclk1 is above 102,375 times the ceiling */
};

/*
 * The fastest speed under a ceiling: of all modes and CCR fields with which the bus is not faster than the ceiling,
 * those with which it is the fastest. Of several that are equally fast it is the one in Standard, else the one in
 * Fast 2:1.
 *
 *   pclk1    in hertz; with 0 every mode and field fit, so that it is Fast 2:1 with field 1
 *   ceiling  in hertz
 *   chosen   written   the answer, the mode and the field, all three in every call
 *
 * With an answer other than 0 the mode and the field are 0. With the answer 0 the speed of the bus is
 * pclk1 / (2 * field) hertz in Standard, pclk1 / (3 * field) in Fast 2:1, and pclk1 / (25 * field) in Fast 16:9.
 *
 * A list takes this pclk1, this mode and a frequency, and no field. The frequency to try is the speed of the bus,
 * rounded down, or 1 where that is 0. It will do if speed_ccr answers this field for it, plus 32768 in Fast 2:1 and
 * 49152 in Fast 16:9. From 4,095 Hz on it always will. A word with a larger field is slower than what was chosen. The
 * ceiling itself can come to a faster one: the bring-up rounds the field down.
 *
 * The caller sees to it that `chosen` is not null, points to three numbers and is aligned for them, and that no other
 * thread reads or writes these until the call returns. They need not be initialised. No other pointer is handed over,
 * so there is nothing that they could overlap.
 */
void speed_under(uint32_t pclk1, uint32_t ceiling, uint32_t chosen[VANDHUKRIL_CHOSEN]);

#ifdef __cplusplus
}
#endif

#endif
