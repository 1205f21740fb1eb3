/*
 * A fast interpreter of scans, to compare times with.
 *
 *   interpreter IMAGE SCANS [--constant BYTE] [--block PERIOD] [--repeat R]
 *
 * It takes an accepted image and does not judge it. Each line becomes a cell
 * with the address of the code that does it, so that the way from line to line
 * is one indirect jump. After the lines of each module stands one more cell,
 * the module's end.
 */

#include <inttypes.h>
#include <stdint.h>
#include <stdio.h>
#include <stdlib.h>
#include <string.h>
#include <time.h>

enum { MODULES = 7, MOST_BYTES = 1024, MOST_MECHANISMS = 32, MOST_LINES = 2048 };
enum { INPUT, BLOCK_INIT, BLOCK_DONE, MAIN, INIT, CLEAR, HALT };
enum { LARGEST_IMAGE = 22 + MOST_BYTES + 2 * MOST_MECHANISMS + 4 * MOST_LINES };

/* What a cell can do. */
enum {
    LOAD, LOAD_NOT, PUSH_LOAD, PUSH_LOAD_NOT,
    AND, AND_NOT, AND_CELL, OR, OR_NOT, OR_CELL, XOR, XOR_NOT, XOR_CELL,
    NEGATE, WRITE, CLEAR_BIT, SET_BIT, CLEAR_IF, SET_IF, JUMP_0, JUMP_1,
    EX, EX0, EX1,
    LOD1, LOD2, LOD4, STO1, STO2, STO4, AD1, AD2, AD4, ABS1, ABS2, ABS4, GE1, GE2, GE4,
    MECH_BEGIN, MECH_END, MECH_INIT, UNIT_END, OPERATIONS
};

typedef struct cell cell;

struct cell {
    const void *code;   /* where the operation is done */
    uint8_t *byte;      /* the byte of the bit, or of the number */
    const cell *other;  /* jump: the target; MECH_BEGIN: after the mechanism; MECH_INIT: its first */
    const cell **point; /* MECH_BEGIN, MECH_INIT: the mechanism's point */
    uint32_t bit;       /* the number of the bit in its byte */
    uint32_t operation;
};

typedef struct {
    uint8_t data[MOST_BYTES + 4];
    uint8_t initial[MOST_BYTES];
    uint8_t terminals[8];
    unsigned bytes, mechanisms, lines;
    uint16_t activation[MOST_MECHANISMS];
    unsigned first[MODULES + 1];
    cell cells[MOST_LINES + MODULES];
    const cell *module_first[MODULES];
    const cell *points[MOST_MECHANISMS];
    const cell *mechanism_first[MOST_MECHANISMS];
    const cell *block_point[2]; /* of BLOCK_INIT and BLOCK_DONE */
    unsigned phase;
    uint64_t steps;
} machine;

static void fail(const char *what) {
    fprintf(stderr, "interpreter: %s\n", what);
    exit(2);
}

/* ---- one pass ---------------------------------------------------------- */

static inline uint32_t number2(const uint8_t *at) {
    uint16_t number;
    memcpy(&number, at, 2);
    return number;
}

static inline uint32_t number4(const uint8_t *at) {
    uint32_t number;
    memcpy(&number, at, 4);
    return number;
}

/*
 * Makes one pass from the cell on. Answers 1 where the unit's end is reached.
 * Without a machine it only hands out the addresses of the operations.
 */
static int pass(machine *m, const cell *at, const cell **point, const void *const **table) {
    static const void *const operations[OPERATIONS] = {
        &&load, &&load_not, &&push_load, &&push_load_not,
        &&and, &&and_not, &&and_cell, &&or, &&or_not, &&or_cell, &&xor, &&xor_not, &&xor_cell,
        &&negate, &&write, &&clear_bit, &&set_bit, &&clear_if, &&set_if, &&jump_0, &&jump_1,
        &&ex, &&ex0, &&ex1,
        &&lod1, &&lod2, &&lod4, &&sto1, &&sto2, &&sto4, &&ad1, &&ad2, &&ad4,
        &&abs1, &&abs2, &&abs4, &&ge1, &&ge2, &&ge4,
        &&mech_begin, &&mech_end, &&mech_init, &&unit_end
    };
    if (!m) {
        *table = operations;
        return 0;
    }

    uint32_t rlo = 0, dr = 0, stack = 0;
    uint64_t steps = 0;
    const cell *after_mechanism = NULL; /* where MAIN goes on, inside a mechanism */

#define GO goto *at->code
#define NEXT do { at++; steps++; GO; } while (0)
#define BIT (((uint32_t)*at->byte >> at->bit) & 1)
#define MASK (1u << at->bit)

    GO;

load:          rlo = BIT; NEXT;
load_not:      rlo = BIT ^ 1; NEXT;
push_load:     stack = stack << 1 | rlo; rlo = BIT; NEXT;
push_load_not: stack = stack << 1 | rlo; rlo = BIT ^ 1; NEXT;
and:           rlo &= BIT; NEXT;
and_not:       rlo &= BIT ^ 1; NEXT;
and_cell:      rlo &= stack & 1; stack >>= 1; NEXT;
or:            rlo |= BIT; NEXT;
or_not:        rlo |= BIT ^ 1; NEXT;
or_cell:       rlo |= stack & 1; stack >>= 1; NEXT;
xor:           rlo ^= BIT; NEXT;
xor_not:       rlo ^= BIT ^ 1; NEXT;
xor_cell:      rlo ^= stack & 1; stack >>= 1; NEXT;
negate:        rlo ^= 1; NEXT;
write:         *at->byte = (uint8_t)((*at->byte & ~MASK) | rlo << at->bit); NEXT;
clear_bit:     *at->byte = (uint8_t)(*at->byte & ~MASK); NEXT;
set_bit:       *at->byte = (uint8_t)(*at->byte | MASK); NEXT;
clear_if:      *at->byte = (uint8_t)(*at->byte & ~(rlo << at->bit)); NEXT;
set_if:        *at->byte = (uint8_t)(*at->byte | rlo << at->bit); NEXT;
jump_0:        steps++; at = rlo ? at + 1 : at->other; GO;
jump_1:        steps++; at = rlo ? at->other : at + 1; GO;

ex:            steps++; *point = at + 1; goto leave;
ex0:           if (!rlo) { steps++; goto leave; } *point = at + 1; NEXT;
ex1:           if (rlo) { steps++; goto leave; } *point = at + 1; NEXT;

lod1:          dr = *at->byte; NEXT;
lod2:          dr = number2(at->byte); NEXT;
lod4:          dr = number4(at->byte); NEXT;
sto1:          memcpy(at->byte, &dr, 1); NEXT;
sto2:          memcpy(at->byte, &dr, 2); NEXT;
sto4:          memcpy(at->byte, &dr, 4); NEXT;
ad1:           dr = (uint8_t)(dr + *at->byte); NEXT;
ad2:           dr = (uint16_t)(dr + number2(at->byte)); NEXT;
ad4:           dr = dr + number4(at->byte); NEXT;
abs1:          dr = (uint8_t)((int8_t)dr < 0 ? 0u - dr : dr); NEXT;
abs2:          dr = (uint16_t)((int16_t)dr < 0 ? 0u - dr : dr); NEXT;
abs4:          dr = (int32_t)dr < 0 ? 0u - dr : dr; NEXT;
ge1:           rlo = (int8_t)dr >= (int8_t)*at->byte; NEXT;
ge2:           rlo = (int16_t)dr >= (int16_t)number2(at->byte); NEXT;
ge4:           rlo = (int32_t)dr >= (int32_t)number4(at->byte); NEXT;

mech_begin:
    steps++;
    if (BIT) {
        after_mechanism = at->other;
        point = at->point;
        at = *point;
    } else {
        at = at->other;
    }
    rlo = 0;
    dr = 0;
    GO;

mech_end:
    steps++;
    *at->byte = (uint8_t)(*at->byte & ~MASK);
    *point = at->other;
    goto leave;

mech_init:
    *at->byte = (uint8_t)(*at->byte & ~MASK);
    *at->point = at->other;
    NEXT;

leave:
    if (after_mechanism) {
        at = after_mechanism;
        after_mechanism = NULL;
        rlo = 0;
        dr = 0;
        stack = 0;
        GO;
    }
    m->steps += steps;
    return 0;

unit_end:
    m->steps += steps;
    return 1;

#undef GO
#undef NEXT
#undef BIT
#undef MASK
}

/* ---- session ----------------------------------------------------------- */

static void run_module(machine *m, int module) {
    pass(m, m->module_first[module], NULL, NULL);
}

/* Runs BLOCK_INIT (0) or BLOCK_DONE (1) from its point; 1 where its end is reached. */
static int run_block(machine *m, int which) {
    int at_end = pass(m, m->block_point[which], &m->block_point[which], NULL);
    if (at_end)
        m->block_point[which] = m->module_first[BLOCK_INIT + which];
    return at_end;
}

static void send_outputs(machine *m) {
    memcpy(m->terminals, m->data + 8, 8);
}

static void start(machine *m) {
    memcpy(m->data, m->initial, m->bytes);
    for (unsigned k = 0; k < m->mechanisms; k++)
        m->points[k] = m->mechanism_first[k];
    m->block_point[0] = m->module_first[BLOCK_INIT];
    m->block_point[1] = m->module_first[BLOCK_DONE];
    m->phase = 0;
    run_module(m, INIT);
    m->steps = 0; /* only the steps of scans are counted */
    send_outputs(m);
}

static void block_start(machine *m) {
    if (m->phase == 0)
        m->phase = 1;
}

static void position_report(machine *m) {
    if (m->phase == 2)
        m->phase = m->data[16] & 1 ? 3 : 0;
}

static void scan(machine *m, const uint8_t inputs[8]) {
    memcpy(m->data, inputs, 8);
    run_module(m, INPUT);
    if (m->phase == 1 && run_block(m, 0))
        m->phase = 2;
    else if (m->phase == 3 && run_block(m, 1))
        m->phase = 0;
    run_module(m, MAIN);
    send_outputs(m);
}

/* ---- image ------------------------------------------------------------- */

static unsigned count_at(const uint8_t *image, size_t size, size_t at, unsigned most) {
    if (at + 2 > size)
        fail("the image is too short");
    unsigned count = image[at] | image[at + 1] << 8;
    if (count > most)
        fail("a count is too large");
    return count;
}

static int bit_operation(int code, int mode, int flag) {
    switch (code) {
    case 1: return (flag ? PUSH_LOAD : LOAD) + mode;
    case 2: return AND + mode;
    case 3: return OR + mode;
    case 4: return XOR + mode;
    case 6: return WRITE;
    case 7: return CLEAR_BIT + mode;
    default: return CLEAR_IF + mode;
    }
}

static int operation_of(int code, int mode, int flag) {
    int width = mode == 4 ? 2 : mode - 1;
    switch (code) {
    case 5: return NEGATE;
    case 9: return JUMP_0;
    case 10: return JUMP_1;
    case 11: return EX;
    case 12: return EX0;
    case 13: return EX1;
    case 16: return LOD1 + width;
    case 17: return STO1 + width;
    case 19: return AD1 + width;
    case 20: return ABS1 + width;
    case 21: return GE1 + width;
    case 22: return MECH_BEGIN;
    case 23: return MECH_END;
    case 24: return MECH_INIT;
    default: return bit_operation(code, mode, flag);
    }
}

/* The text flag after a line. */
static int flag_after(int code, int flag) {
    switch (code) {
    case 1: return 1;
    case 6: case 8: case 9: case 10: case 11: case 12: case 13: case 22: case 23: return 0;
    default: return flag;
    }
}

/* The cell of a line, or of the module's end, seen from a module. */
static cell *cell_of(machine *m, int module, unsigned line) {
    return &m->cells[line + (unsigned)module];
}

static void set_bit_place(machine *m, cell *c, unsigned address) {
    c->byte = &m->data[address / 8];
    c->bit = address % 8;
}

static void fill_cell(machine *m, int module, unsigned line, const uint8_t *record, int flag) {
    cell *c = cell_of(m, module, line);
    int code = record[0], mode = record[1];
    unsigned operand = record[2] | (unsigned)record[3] << 8;
    c->operation = (uint32_t)operation_of(code, mode, flag);
    c->byte = m->data;
    if (code >= 22) {
        set_bit_place(m, c, m->activation[operand]);
        c->point = &m->points[operand];
    } else if (code >= 16 && code != 20) {
        c->byte = &m->data[operand];
    } else if (code == 9 || code == 10) {
        c->other = cell_of(m, module, operand);
    } else if (code <= 8 && mode != 2) {
        set_bit_place(m, c, operand);
    }
}

/* Lets MECH_BEGIN, MECH_END and MECH_INIT know where their mechanism stands. */
static void link_mechanisms(machine *m, const uint8_t *lines) {
    const cell *after[MOST_MECHANISMS] = {0};
    for (unsigned line = m->first[MAIN]; line < m->first[MAIN + 1]; line++) {
        unsigned k = lines[4 * line + 2];
        if (lines[4 * line] == 22)
            m->mechanism_first[k] = cell_of(m, MAIN, line + 1);
        if (lines[4 * line] == 23)
            after[k] = cell_of(m, MAIN, line + 1);
    }
    for (int module = 0; module < MODULES; module++)
        for (unsigned line = m->first[module]; line < m->first[module + 1]; line++) {
            unsigned code = lines[4 * line], k = lines[4 * line + 2];
            if (code >= 22)
                cell_of(m, module, line)->other = code == 22 ? after[k] : m->mechanism_first[k];
        }
}

static void fill_cells(machine *m, const uint8_t *lines) {
    const void *const *operations;
    pass(NULL, NULL, NULL, &operations);
    for (int module = 0; module < MODULES; module++) {
        int flag = 0;
        for (unsigned line = m->first[module]; line < m->first[module + 1]; line++) {
            fill_cell(m, module, line, lines + 4 * line, flag);
            flag = flag_after(lines[4 * line], flag);
        }
        cell_of(m, module, m->first[module + 1])->operation = UNIT_END;
        m->module_first[module] = cell_of(m, module, m->first[module]);
    }
    link_mechanisms(m, lines);
    for (unsigned at = 0; at < m->lines + MODULES; at++)
        m->cells[at].code = operations[m->cells[at].operation];
}

static void load(machine *m, const uint8_t *image, size_t size) {
    size_t at = 0;
    m->bytes = count_at(image, size, at, MOST_BYTES);
    at += 2;
    size_t data = at;
    at += m->bytes;
    m->mechanisms = count_at(image, size, at, MOST_MECHANISMS);
    at += 2;
    size_t activation = at;
    at += 2 * m->mechanisms;
    if (count_at(image, size, at, MODULES) != MODULES)
        fail("there are not seven modules");
    at += 2;
    size_t lengths = at;
    at += 2 * MODULES;
    m->lines = count_at(image, size, at, MOST_LINES);
    at += 2;
    if (at + 4 * m->lines != size)
        fail("the image has another length than its counts say");
    memcpy(m->initial, image + data, m->bytes);
    for (unsigned k = 0; k < m->mechanisms; k++)
        m->activation[k] = (uint16_t)count_at(image, size, activation + 2 * k, 8 * m->bytes - 1);
    for (int module = 0; module < MODULES; module++)
        m->first[module + 1] =
            m->first[module] + count_at(image, size, lengths + 2 * (size_t)module, MOST_LINES);
    if (m->first[MODULES] != m->lines)
        fail("the lengths do not add up");
    fill_cells(m, image + at);
}

static void load_file(machine *m, const char *path) {
    static uint8_t image[LARGEST_IMAGE + 1];
    FILE *file = fopen(path, "rb");
    if (!file)
        fail("the image cannot be opened");
    size_t size = fread(image, 1, sizeof image, file);
    fclose(file);
    load(m, image, size);
}

/* ---- what is measured -------------------------------------------------- */

typedef struct {
    const char *image;
    uint64_t scans;
    int constant;    /* the byte of all inputs, or -1 for cycling inputs */
    uint64_t period; /* of block calls, 0 for none */
    int repeat;
} options;

static void make_inputs(const options *o, uint64_t number, uint8_t inputs[8]) {
    for (unsigned i = 0; i < 8; i++)
        inputs[i] = (uint8_t)(o->constant < 0 ? number * 7 + i * 31 : (uint64_t)o->constant);
}

static void block_calls(machine *m, const options *o, uint64_t number) {
    if (!o->period)
        return;
    if (number % o->period == 0)
        block_start(m);
    if (number % o->period == o->period / 2)
        position_report(m);
}

static void one_scan(machine *m, const options *o, uint64_t number) {
    uint8_t inputs[8];
    make_inputs(o, number, inputs);
    block_calls(m, o, number);
    scan(m, inputs);
}

/* FNV-1a of 64 bits over all data bytes after each scan, folded to 32 bits. */
static uint32_t checksum(machine *m, const options *o) {
    uint64_t hash = 0xcbf29ce484222325u;
    start(m);
    for (uint64_t number = 0; number < o->scans; number++) {
        one_scan(m, o, number);
        for (unsigned i = 0; i < m->bytes; i++)
            hash = (hash ^ m->data[i]) * 0x100000001b3u;
    }
    return (uint32_t)(hash ^ hash >> 32);
}

static double seconds(void) {
    struct timespec now;
    clock_gettime(CLOCK_MONOTONIC, &now);
    return (double)now.tv_sec + 1e-9 * (double)now.tv_nsec;
}

/* The time of all scans without the checksum. */
static double timed(machine *m, const options *o) {
    start(m);
    double begin = seconds();
    for (uint64_t number = 0; number < o->scans; number++)
        one_scan(m, o, number);
    return seconds() - begin;
}

static options read_options(int count, char **words) {
    options o = {.constant = -1, .repeat = 3};
    if (count < 3)
        fail("usage: interpreter IMAGE SCANS [--constant BYTE] [--block PERIOD] [--repeat R]");
    o.image = words[1];
    o.scans = strtoull(words[2], NULL, 10);
    for (int at = 3; at + 1 < count; at += 2) {
        uint64_t value = strtoull(words[at + 1], NULL, 10);
        if (!strcmp(words[at], "--constant"))
            o.constant = (int)(value & 255);
        else if (!strcmp(words[at], "--block"))
            o.period = value;
        else if (!strcmp(words[at], "--repeat"))
            o.repeat = (int)value;
        else
            fail("unknown option");
    }
    return o;
}

int main(int count, char **words) {
    static machine m;
    options o = read_options(count, words);
    load_file(&m, o.image);
    uint32_t sum = checksum(&m, &o);
    uint64_t steps = m.steps;
    double best = 0;
    for (int run = 0; run < o.repeat; run++) {
        double took = timed(&m, &o);
        if (m.steps != steps)
            fail("two runs differ in their steps");
        if (run == 0 || took < best)
            best = took;
    }
    printf("steps %" PRIu64 "\n", steps);
    printf("checksum %08" PRIx32 "\n", sum);
    printf("nanoseconds a step %.3f\n", steps ? 1e9 * best / (double)steps : 0.0);
    return 0;
}
