/* The machine in C, as fast as it may be plainly written: what the engine is measured beside (docs/SPEED.md).

   engine NAME MODULE          runs the module over a new axis, again and again 10,000 steps, and prints how fast that is
   engine NAME MODULE STEPS    makes so many steps, and prints what there is then

   The module is one that the check accepts. So what the check has made sure is not tested again: every row is well formed, and
   registers, routines and instructions that it names are there. What a run may meet is tested: fuel, division by zero, the
   end of memory, the nesting of 32 routines, and the ports of the axis with their limits. */

#include <stdint.h>
#include <stdio.h>
#include <stdlib.h>
#include <string.h>
#include <time.h>

enum { REGISTERS = 32, NESTED = 32, MEMORY = 4096, ROUTINES = 64, LONGEST = 37380, FUEL = 10000, ROUNDS = 7 };

/* A row is an instruction as it stands in the module, on a machine whose numbers have their lowest byte first. */
typedef struct {
    uint8_t op, a, b, c;
    uint32_t n;
} Row;

typedef struct {
    const Row *body;
    uint8_t arguments, results;
} Routine;

/* A routine that waits stands at its CALL. */
typedef struct {
    uint32_t registers[REGISTERS];
    const Routine *routine;
    const Row *at;
    uint32_t depth;
} Frame;

typedef struct {
    uint32_t ordered, ramp, speed, position;
} Axis;

typedef enum { RUNNING, ENDED, TRIPPED } State;

typedef struct {
    uint32_t number, layer;
    uint64_t detail;
} Cause;

typedef struct {
    Row rows[LONGEST / sizeof(Row)];
    Routine routines[ROUTINES];
    uint8_t memory[MEMORY];
    Frame frames[NESTED];
    Frame *top;
    Axis axis;
    State state;
    Cause cause;
} Machine;

enum { NEW, DEF, KILL, MOV, SWAP, ADD, SUB, MUL, DIV, REM, AND, OR, XOR, SL, SRL, SRA, LD, ST,
       BAL, BEQ, BLT, BLTS, CALL, RET, GET, PUT, TICK };

/* Quotient and remainder of signed numbers towards zero. -2^31 by -1 has the quotient 2^31, which is no signed word. */
static uint32_t quotient_towards_zero(uint32_t b, uint32_t c)
{
    return (uint32_t)((int64_t)(int32_t)b / (int32_t)c);
}

static uint32_t remainder_towards_zero(uint32_t b, uint32_t c)
{
    return (uint32_t)((int64_t)(int32_t)b % (int32_t)c);
}

/* Rounded downwards the quotient is one less where something is left and the signs differ. */
static int is_rounded_down(uint32_t b, uint32_t c)
{
    return (int32_t)(b ^ c) < 0 && remainder_towards_zero(b, c) != 0;
}

static uint32_t quotient(uint32_t kind, uint32_t b, uint32_t c)
{
    switch (kind) {
    case 0: return b / c;
    case 1: return quotient_towards_zero(b, c);
    case 2: return quotient_towards_zero(b, c) - is_rounded_down(b, c);
    default: __builtin_unreachable();
    }
}

static uint32_t remainder_of(uint32_t kind, uint32_t b, uint32_t c)
{
    switch (kind) {
    case 0: return b % c;
    case 1: return remainder_towards_zero(b, c);
    case 2: return remainder_towards_zero(b, c) + (is_rounded_down(b, c) ? c : 0);
    default: __builtin_unreachable();
    }
}

static void tick(Axis *axis)
{
    if (axis->speed < axis->ordered) {
        uint32_t missing = axis->ordered - axis->speed;
        axis->speed += missing < axis->ramp ? missing : axis->ramp;
    } else {
        uint32_t over = axis->speed - axis->ordered;
        axis->speed -= over < axis->ramp ? over : axis->ramp;
    }
    axis->position += axis->speed;
}

/* The number of the refusal, or 0. */
static uint32_t put(Axis *axis, uint8_t port, uint32_t value)
{
    switch (port) {
    case 0:
        if (value > 3000) return 6;
        axis->ordered = value;
        return 0;
    case 1:
        if (value < 1 || value > 500) return 6;
        axis->ramp = value;
        return 0;
    case 2:
    case 3:
        return 5;
    default:
        return 4;
    }
}

/* Makes steps until the fuel is used or the state leaves running, and says how many. */
static uint32_t grant(Machine *machine, uint32_t fuel)
{
    const Routine *const routines = machine->routines;
    uint8_t *const memory = machine->memory;
    Axis *const axis = &machine->axis;
    Frame *frame = machine->top;
    uint32_t *r = frame->registers;
    const Row *at = frame->at;
    const Row *body = frame->routine->body;
    uint32_t depth = frame->depth;
    uint32_t left = fuel;
    Cause cause = {0, 0, 0};

#define TRIP(...) do { cause = (Cause){__VA_ARGS__}; goto tripped; } while (0)
#define GO_IF(condition) at = (condition) ? body + at->n : at + 1; continue

    while (left != 0) {
        left--;
        switch (at->op) {
        case NEW: r[depth++] = 0; break;
        case DEF: r[depth++] = at->n; break;
        case KILL: depth--; break;
        case MOV: r[at->a] = r[at->b]; break;
        case SWAP: {
            uint32_t of_a = r[at->a];
            r[at->a] = r[at->b];
            r[at->b] = of_a;
            break;
        }
        case ADD: r[at->a] = r[at->b] + r[at->c]; break;
        case SUB: r[at->a] = r[at->b] - r[at->c]; break;
        case MUL: r[at->a] = r[at->b] * r[at->c]; break;
        case DIV:
            if (r[at->c] == 0) TRIP(1, 2, 0);
            r[at->a] = quotient(at->n, r[at->b], r[at->c]);
            break;
        case REM:
            if (r[at->c] == 0) TRIP(1, 2, 0);
            r[at->a] = remainder_of(at->n, r[at->b], r[at->c]);
            break;
        case AND: r[at->a] = r[at->b] & r[at->c]; break;
        case OR: r[at->a] = r[at->b] | r[at->c]; break;
        case XOR: r[at->a] = r[at->b] ^ r[at->c]; break;
        case SL: r[at->a] = r[at->c] < 32 ? r[at->b] << r[at->c] : 0; break;
        case SRL: r[at->a] = r[at->c] < 32 ? r[at->b] >> r[at->c] : 0; break;
        case SRA: r[at->a] = (uint32_t)((int32_t)r[at->b] >> (r[at->c] < 32 ? r[at->c] : 31)); break;
        case LD: {
            uint64_t address = (uint64_t)r[at->b] + at->n;
            uint32_t value = 0;
            if (address + at->c > MEMORY) TRIP(2, 2, address);
            switch (at->c) {
            case 1: value = memory[address]; break;
            case 2: memcpy(&value, memory + address, 2); break;
            case 4: memcpy(&value, memory + address, 4); break;
            default: __builtin_unreachable();
            }
            r[at->a] = value;
            break;
        }
        case ST: {
            uint64_t address = (uint64_t)r[at->b] + at->n;
            uint32_t value = r[at->a];
            if (address + at->c > MEMORY) TRIP(2, 2, address);
            switch (at->c) {
            case 1: memory[address] = (uint8_t)value; break;
            case 2: memcpy(memory + address, &value, 2); break;
            case 4: memcpy(memory + address, &value, 4); break;
            default: __builtin_unreachable();
            }
            break;
        }
        case BAL: at = body + at->n; continue;
        case BEQ: GO_IF(r[at->a] == r[at->b]);
        case BLT: GO_IF(r[at->a] < r[at->b]);
        case BLTS: GO_IF((int32_t)r[at->a] < (int32_t)r[at->b]);
        case CALL: {
            const Routine *called = routines + at->n;
            uint32_t *from = r + at->b;
            if (frame == machine->frames + NESTED - 1) TRIP(3, 2, 0);
            frame->at = at;
            frame->depth = depth;
            frame++;
            frame->routine = called;
            r = frame->registers;
            depth = called->arguments;
            for (uint32_t k = 0; k < depth; k++) r[k] = from[k];
            at = body = called->body;
            continue;
        }
        case RET: {
            uint32_t *from = r + at->a;
            uint32_t results = frame->routine->results;
            if (frame->routine == routines) {
                machine->state = ENDED;
                goto left_running;
            }
            frame--;
            r = frame->registers;
            at = frame->at;
            depth = frame->depth;
            body = frame->routine->body;
            for (uint32_t k = 0; k < results; k++) r[at->a + k] = from[k];
            break;
        }
        case GET:
            switch (at->c) {
            case 0: r[at->a] = axis->ordered; break;
            case 1: r[at->a] = axis->ramp; break;
            case 2: r[at->a] = axis->speed; break;
            case 3: r[at->a] = axis->position; break;
            default: TRIP(4, 3, at->c);
            }
            break;
        case PUT: {
            uint32_t refusal = put(axis, at->c, r[at->b]);
            if (refusal != 0) TRIP(refusal, 3, at->c);
            break;
        }
        case TICK: tick(axis); break;
        default: __builtin_unreachable();
        }
        at++;
    }
    goto left_running;
tripped:
    machine->state = TRIPPED;
    machine->cause = cause;
left_running:
    frame->at = at;
    frame->depth = depth;
    machine->top = frame;
    return fuel - left;
}

static void fail(const char *what)
{
    fprintf(stderr, "engine: %s\n", what);
    exit(1);
}

static uint32_t number(const uint8_t *bytes, int width)
{
    uint32_t value = 0;
    for (int k = width - 1; k >= 0; k--) value = value << 8 | bytes[k];
    return value;
}

/* A machine where the run of the module begins. */
static void begin(Machine *machine, const char *path)
{
    static uint8_t bytes[LONGEST];
    FILE *file = fopen(path, "rb");
    if (file == NULL) fail("the module cannot be opened");
    size_t length = fread(bytes, 1, sizeof bytes, file);
    fclose(file);
    if (length < 20) fail("the module is too short");
    memset(machine, 0, sizeof *machine);
    uint32_t routines = number(bytes, 2);
    uint32_t image = number(bytes + 2, 2);
    uint32_t bodies = 4 + 8 * routines;
    memcpy(machine->rows, bytes + bodies, length - bodies - image);
    for (uint32_t k = 0; k < routines; k++) {
        const uint8_t *entry = bytes + 4 + 8 * k;
        machine->routines[k].body = machine->rows + (number(entry, 4) - bodies) / sizeof(Row);
        machine->routines[k].arguments = entry[6];
        machine->routines[k].results = entry[7];
    }
    memcpy(machine->memory, bytes + length - image, image);
    machine->top = machine->frames;
    machine->top->routine = machine->routines;
    machine->top->at = machine->routines[0].body;
    machine->axis.ramp = 50;
}

static double seconds(void)
{
    struct timespec now;
    clock_gettime(CLOCK_MONOTONIC, &now);
    return (double)now.tv_sec + 1e-9 * (double)now.tv_nsec;
}

static double time_of_round(Machine *machine, uint32_t grants)
{
    double start = seconds();
    for (uint32_t k = 0; k < grants; k++)
        if (grant(machine, FUEL) != FUEL || machine->state != RUNNING) fail("a grant did not make all its steps");
    return seconds() - start;
}

static void measure(Machine *machine, const char *name)
{
    uint32_t grants = 1;
    double best = time_of_round(machine, grants);
    while (best < 0.2) best = time_of_round(machine, grants *= 2);
    for (int k = 1; k < ROUNDS; k++) {
        double time = time_of_round(machine, grants);
        if (time < best) best = time;
    }
    double steps = (double)grants * FUEL;
    printf("%s %.0f steps/s %.2f ns/step\n", name, steps / best, 1e9 * best / steps);
}

/* The state of a machine as the other programs print it (compare/src/timing.rs). */
static void print_state(const Machine *machine, uint64_t steps)
{
    const Frame *top = machine->top;
    const Axis *axis = &machine->axis;
    const Cause *cause = &machine->cause;
    uint64_t sum = 0;
    for (uint64_t k = 0; k < MEMORY; k++) sum += (k + 1) * machine->memory[k];
    printf("steps %llu\n", (unsigned long long)steps);
    if (machine->state == TRIPPED)
        printf("tripped %u %u %llu\n", cause->number, cause->layer, (unsigned long long)cause->detail);
    else
        printf("%s\n", machine->state == RUNNING ? "running" : "ended");
    if (machine->state != ENDED) {
        printf("place %d %d\n", (int)(top->routine - machine->routines), (int)(top->at - top->routine->body));
        printf("registers");
        for (uint32_t k = 0; k < top->depth; k++) printf(" %u", top->registers[k]);
        printf("\n");
    }
    printf("ports %u %u %u %u\n", axis->ordered, axis->ramp, axis->speed, axis->position);
    printf("memory %llu\n", (unsigned long long)sum);
}

int main(int count, char **words)
{
    static Machine machine;
    if (count != 3 && count != 4) fail("engine NAME MODULE [STEPS]");
    begin(&machine, words[2]);
    if (count == 3) {
        measure(&machine, words[1]);
        return 0;
    }
    uint64_t wanted = strtoull(words[3], NULL, 10);
    uint64_t made = 0;
    while (made < wanted && machine.state == RUNNING)
        made += grant(&machine, wanted - made < FUEL ? (uint32_t)(wanted - made) : FUEL);
    print_state(&machine, made);
    return 0;
}
