/* Measures the stack of the exported library's calls, on x86-64 Linux: a call is made instruction by instruction, and of each function
 * that is watched the lowest stack pointer is noted between its entry and its return.
 * usage: stack SYMBOLS [PROGRAM]..     (SYMBOLS: a file of lines `ADDRESS NAME`; PROGRAM: a stored program, whose run is measured)
 */
#define _GNU_SOURCE
#include <inttypes.h>
#include <signal.h>
#include <stdio.h>
#include <stdlib.h>
#include <string.h>
#include <ucontext.h>

#include "ql.h"

/* Steps of the run of a shape, which takes as much in each, and of a stored program's. */
enum { FEW_STEPS = 30, MOST_STEPS = 1000 };

/* A function that is watched; a call of it is under way while `begun` is not 0. */
struct watched {
    const char *symbol;
    uintptr_t address, begun, lowest;
    size_t deepest;
};

/* What the calls do, and the exported calls, which keep tables of their own on the stack. */
enum { CHECK, FIND, NEXT, WHOLE_READ, WHOLE_CHECK, WHOLE_FIND, WHOLE_NEXT, WHOLE_RUN, WATCHED };

static struct watched watched[WATCHED] = {
    [CHECK] = {.symbol = "checker::accepting::check"},
    [FIND] = {.symbol = "finder::finder::find"},
    [NEXT] = {.symbol = "stepper::writing::put_next"},
    [WHOLE_READ] = {.symbol = "ql_read"},
    [WHOLE_CHECK] = {.symbol = "ql_check"},
    [WHOLE_FIND] = {.symbol = "ql_find"},
    [WHOLE_NEXT] = {.symbol = "ql_next"},
    [WHOLE_RUN] = {.symbol = "ql_run"},
};

/* The stack of a whole run while no check, find or next of its own is under way. */
static size_t between;

static size_t taken(const struct watched *f, uintptr_t stack)
{
    return f->begun + sizeof(uintptr_t) - stack;
}

/* Notes where the stack is, at one instruction. */
static void note(uintptr_t instruction, uintptr_t stack)
{
    for (int i = 0; i < WATCHED; i++) {
        struct watched *f = &watched[i];
        if (f->begun != 0 && stack > f->begun) {
            if (taken(f, f->lowest) > f->deepest)
                f->deepest = taken(f, f->lowest);
            f->begun = 0;
        }
        if (f->begun == 0 && instruction == f->address)
            f->begun = f->lowest = stack;
        if (f->begun != 0 && stack < f->lowest)
            f->lowest = stack;
    }
    if (watched[WHOLE_RUN].begun != 0 && watched[CHECK].begun == 0 && watched[FIND].begun == 0
        && watched[NEXT].begun == 0 && taken(&watched[WHOLE_RUN], stack) > between)
        between = taken(&watched[WHOLE_RUN], stack);
}

static void on_instruction(int signal, siginfo_t *info, void *context)
{
    (void)signal;
    (void)info;
    const greg_t *registers = ((ucontext_t *)context)->uc_mcontext.gregs;
    note((uintptr_t)registers[REG_RIP], (uintptr_t)registers[REG_RSP]);
}

/* Has the processor stop after each instruction, or no more. */
static void step(int on)
{
    uint64_t flags;
    __asm__ volatile("subq $128, %%rsp; pushfq; popq %0; addq $128, %%rsp" : "=r"(flags) : : "memory");
    flags = on ? flags | 0x100 : flags & ~(uint64_t)0x100;
    __asm__ volatile("subq $128, %%rsp; pushq %0; popfq; addq $128, %%rsp" : : "r"(flags) : "memory", "cc");
}

/* A program or a running term that is made cell by cell. */
static uint32_t letters[QL_MOST_TYPE_CELLS];
static ql_node nodes[QL_MOST_RUNNING_CELLS];
static size_t type_cells, term_cells;

static void begin(void)
{
    type_cells = term_cells = 0;
}

static void types(const char *kinds)
{
    for (; *kinds; kinds++)
        letters[type_cells++] = (uint32_t)*kinds;
}

static void node(char op, unsigned argument, unsigned claim)
{
    nodes[term_cells].letter = (uint32_t)op;
    nodes[term_cells].argument = (uint16_t)argument;
    nodes[term_cells].claim = (uint16_t)claim;
    term_cells++;
}

static void ops(const char *row, unsigned claim)
{
    for (; *row; row++)
        node(*row, 0, claim);
}

static void repeat(const char *row, unsigned times)
{
    while (times-- > 0)
        ops(row, 0);
}

/* Programs that the checker accepts, of so many levels. */

/* With the types q, q>q and b>q in front: so many gates H before a qubit, and a new qubit. */
static void gates(unsigned n)
{
    for (unsigned i = 0; i < n; i++) {
        node('a', 0, 0);
        node('g', 0, 1);
    }
}

static void new_qubit(void)
{
    node('a', 0, 0);
    node('n', 0, 4);
    node('0', 0, 5);
}

static void arguments(unsigned n) /* H (H (.. (new 0))) */
{
    begin();
    types("q>qq>bq");
    gates(n);
    new_qubit();
}

/* H (H (.. ((fun x. new 0) (fun y. 0)))): below all applications two types of so many levels are compared. */
enum { COMPARED_LEVELS = 123 };

static void compared(unsigned n)
{
    begin();
    types("q>qq>bq>");
    for (unsigned i = 0; i < COMPARED_LEVELS; i++)
        types(">");
    for (unsigned i = 0; i <= COMPARED_LEVELS; i++)
        types("b");
    types("q");
    gates(n);
    node('a', 0, 0);
    node('l', 0, 7);
    new_qubit();
    node('l', 0, 8);
    node('0', 0, 5);
}

static void functions(unsigned n) /* fun f. f 0 0 .. 0 */
{
    begin();
    types(">");
    for (unsigned i = 0; i < n; i++)
        types(">b");
    types("bb");
    node('l', 0, 0);
    for (unsigned i = n; i > 0; i--)
        node('a', 0, 1 + 2 * i);
    node('v', 0, 1);
    for (unsigned i = 0; i < n; i++)
        node('0', 0, 2 * n + 1);
}

static void lambdas(unsigned n) /* fun x. fun x. .. x */
{
    begin();
    for (unsigned i = 0; i < n; i++)
        types(">b");
    types("b");
    for (unsigned i = 0; i < n; i++)
        node('l', 0, 2 * i);
    node('v', 0, 2 * n);
}

static void pairs_right(unsigned n) /* <0, <0, .. 0>> */
{
    begin();
    for (unsigned i = 0; i < n; i++)
        types("*b");
    types("b");
    for (unsigned i = 0; i < n; i++) {
        node('p', 0, 2 * i);
        node('0', 0, 1);
    }
    node('0', 0, 1);
}

static void pairs_left(unsigned n) /* <<.. 0, 0>, 0> */
{
    begin();
    for (unsigned i = 0; i < n; i++)
        types("*");
    for (unsigned i = 0; i <= n; i++)
        types("b");
    for (unsigned i = 0; i < n; i++)
        node('p', 0, i);
    for (unsigned i = 0; i <= n; i++)
        node('0', 0, n);
}

static void conditions(unsigned n) /* if (if .. then 1 else 0) then 1 else 0 */
{
    begin();
    types("b");
    repeat("i", n);
    ops("0", 0);
    repeat("10", n);
}

static void branches(unsigned n) /* if 0 then 1 else if 0 then 1 else .. 0 */
{
    begin();
    types("b");
    repeat("i01", n);
    ops("0", 0);
}

static void lets_in_pair(unsigned n) /* let <x, y> = (let <x, y> = .. in <x, y>) in <x, y> */
{
    begin();
    types("*bb");
    repeat("d", n);
    node('p', 0, 0);
    ops("00", 1);
    for (unsigned i = 0; i < n; i++) {
        node('p', 0, 0);
        node('v', 1, 1);
        node('v', 0, 1);
    }
}

static void lets_in_body(unsigned n) /* let <x, y> = <0, 0> in let <x, y> = <0, 0> in .. 0 */
{
    begin();
    types("*bb");
    for (unsigned i = 0; i < n; i++) {
        node('d', 0, 1);
        node('p', 0, 0);
        ops("00", 1);
    }
    ops("0", 1);
}

/* (fun x. 0) applied to a variable, whose type is of so many levels. */
static void typed(void)
{
    node('l', 0, 0);
    node('a', 0, (unsigned)type_cells - 1);
    node('l', 0, 0);
    node('0', 0, (unsigned)type_cells - 1);
    node('v', 0, 1);
}

static void nested_type(const char *left, unsigned n, const char *right)
{
    begin();
    types(">");
    for (unsigned i = 0; i < n; i++)
        types(left);
    types("b");
    for (unsigned i = 0; i < n; i++)
        types(right);
    types("b");
    typed();
}

static void arrows_left(unsigned n)
{
    nested_type(">", n, "b");
}

static void arrows_right(unsigned n)
{
    nested_type(">b", n, "");
}

static void products_left(unsigned n)
{
    nested_type("*", n, "b");
}

static void marks(unsigned n)
{
    nested_type("!", n, "");
}

/* Running terms of so many levels. */

static void running_arguments(unsigned n)
{
    begin();
    repeat("as", n);
    ops("s", 0);
}

static void running_functions(unsigned n)
{
    begin();
    repeat("a", n);
    repeat("s", n + 1);
}

static void running_pairs_right(unsigned n)
{
    begin();
    repeat("ps", n);
    ops("s", 0);
}

static void running_pairs_left(unsigned n)
{
    begin();
    repeat("p", n);
    repeat("s", n + 1);
}

static void running_lets(unsigned n)
{
    begin();
    repeat("d", n);
    repeat("s", n + 1);
}

/* A function applied to unit: the term that it stands for is put in for its variable. */
static void applied(void (*body)(unsigned), unsigned n)
{
    body(n);
    memmove(nodes + 2, nodes, term_cells * sizeof *nodes);
    size_t cells = term_cells;
    term_cells = 0;
    node('a', 0, 0);
    node('l', 0, 0);
    term_cells = cells + 2;
    ops("s", 0);
}

static void running_lambdas(unsigned n)
{
    begin();
    repeat("l", n);
    ops("s", 0);
}

static void body_arguments(unsigned n) { applied(running_arguments, n); }
static void body_functions(unsigned n) { applied(running_functions, n); }
static void body_pairs_left(unsigned n) { applied(running_pairs_left, n); }
static void body_lambdas(unsigned n) { applied(running_lambdas, n); }
static void body_conditions(unsigned n) { applied(conditions, n); }
static void body_branches(unsigned n) { applied(branches, n); }
static void body_lets(unsigned n) { applied(running_lets, n); }

/* A shape: how it is made, and how many levels it has at most, at the limits of a call. */
struct shape {
    const char *name;
    void (*make)(unsigned);
    unsigned levels;
};

static const struct shape programs[] = {
    {"applications in the argument", arguments, 254},
    {"the same, over deep types", compared, 252},
    {"applications in the function", functions, 126},
    {"lambdas", lambdas, 32},
    {"pairs in the right part", pairs_right, 127},
    {"pairs in the left part", pairs_left, 127},
    {"conditions in the condition", conditions, 170},
    {"conditions in the branch", branches, 170},
    {"lets in the pair", lets_in_pair, 127},
    {"lets in the body", lets_in_body, 16},
    {"types: marks", marks, 253},
    {"types: arrows in the argument", arrows_left, 126},
    {"types: arrows in the result", arrows_right, 126},
    {"types: products in the left part", products_left, 126},
};

static const struct shape running[] = {
    {"applications in the argument", running_arguments, 511},
    {"applications in the function", running_functions, 511},
    {"pairs in the right part", running_pairs_right, 511},
    {"pairs in the left part", running_pairs_left, 511},
    {"conditions in the condition", conditions, 341},
    {"lets in the pair", running_lets, 511},
};

static const struct shape bodies[] = {
    {"applications in the argument", body_arguments, 510},
    {"applications in the function", body_functions, 510},
    {"pairs in the left part", body_pairs_left, 510},
    {"lambdas", body_lambdas, 1020},
    {"conditions in the condition", body_conditions, 340},
    {"conditions in the branch", body_branches, 340},
    {"lets in the pair", body_lets, 510},
};

static void forget(void)
{
    for (int i = 0; i < WATCHED; i++)
        watched[i].deepest = watched[i].begun = 0;
    between = 0;
}

static void refused(const char *name, ql_verdict verdict)
{
    fprintf(stderr, "%s: refused by %u at %" PRIu64 "\n", name, verdict.number, verdict.place);
    exit(1);
}

/* Makes a call on a shape of so many levels, whose stack is then noted. */

static void check(const struct shape *shape, unsigned levels)
{
    shape->make(levels);
    forget();
    step(1);
    ql_verdict verdict = ql_check(letters, type_cells, nodes, term_cells);
    step(0);
    if (verdict.number != QL_DONE)
        refused(shape->name, verdict);
}

static void find(const struct shape *shape, unsigned levels)
{
    shape->make(levels);
    forget();
    step(1);
    ql_verdict verdict = ql_find(nodes, term_cells);
    step(0);
    if (verdict.number != QL_DONE && verdict.number != QL_FAULT_NO_RULE)
        refused(shape->name, verdict);
}

static void next(const struct shape *shape, unsigned levels)
{
    static ql_node to[QL_MOST_RUNNING_CELLS];
    shape->make(levels);
    forget();
    step(1);
    ql_verdict verdict = ql_next(nodes, term_cells, QL_NOTHING, to, QL_MOST_RUNNING_CELLS);
    step(0);
    if (verdict.number != QL_DONE)
        refused(shape->name, verdict);
}

/* A call: its name, how it is made, which function does its work, and the shapes that it gets. */
struct call {
    const char *name, *whole_name;
    void (*make)(const struct shape *, unsigned);
    int work, whole;
    const struct shape *shapes;
    size_t count;
};

#define COUNT(shapes) (shapes), sizeof(shapes) / sizeof *(shapes)

static const struct call calls[] = {
    {"check", "ql_check", check, CHECK, WHOLE_CHECK, COUNT(programs)},
    {"find", "ql_find", find, FIND, WHOLE_FIND, COUNT(running)},
    {"next", "ql_next", next, NEXT, WHOLE_NEXT, COUNT(bodies)},
};

/* A row for each shape: its stack at half of the levels and at all of them, what a level takes, and the exported call's. */
static void print_call(const struct call *call)
{
    printf("\n%-34s %6s %6s %6s %8s %8s %8s %8s\n", call->name, "levels", "types", "cells", "at half", "bytes",
           "a level", call->whole_name);
    for (size_t i = 0; i < call->count; i++) {
        const struct shape *shape = &call->shapes[i];
        call->make(shape, shape->levels / 2);
        size_t half = watched[call->work].deepest;
        call->make(shape, shape->levels);
        size_t all = watched[call->work].deepest;
        printf("%-34s %6u %6zu %6zu %8zu %8zu %8.0f %8zu\n", shape->name, shape->levels, type_cells, term_cells, half, all,
               (double)(all - half) / (shape->levels - shape->levels / 2), watched[call->whole].deepest);
    }
}

/* A whole run of the program that was made: what it takes itself, beside its functions, and in all. */
static void print_run(const char *name, uint64_t budget)
{
    static ql_node value[QL_MOST_RUNNING_CELLS];
    static uint32_t kinds[QL_MOST_TYPE_CELLS];
    static ql_pulse pulses[QL_TAPE_PULSES];
    uint8_t outcomes[QL_TAPE_PULSES];
    for (unsigned k = 0; k < QL_TAPE_PULSES; k++)
        outcomes[k] = k % 2;
    forget();
    step(1);
    ql_run(letters, type_cells, nodes, term_cells, outcomes, QL_TAPE_PULSES, budget, value,
           QL_MOST_RUNNING_CELLS, kinds, QL_MOST_TYPE_CELLS, pulses, QL_TAPE_PULSES);
    step(0);
    printf("%-34s %8zu %8zu %8zu %8zu %8zu\n", name, between, watched[CHECK].deepest, watched[FIND].deepest,
           watched[NEXT].deepest, watched[WHOLE_RUN].deepest);
}

/* Reads a stored program, which becomes the one that was made. */
static int read_program(const char *name)
{
    static uint8_t text[1 << 14];
    FILE *input = fopen(name, "rb");
    if (!input) {
        perror(name);
        return 0;
    }
    size_t len = fread(text, 1, sizeof text, input);
    fclose(input);
    ql_verdict verdict = ql_read(text, len, letters, QL_MOST_TYPE_CELLS, nodes, QL_MOST_TERM_CELLS);
    if (verdict.number != QL_DONE)
        refused(name, verdict);
    type_cells = verdict.type_cells;
    term_cells = verdict.term_cells;
    return 1;
}

/* The runs of the programs of every shape, and of the stored ones. */
static int print_runs(char **names)
{
    printf("\n%-34s %8s %8s %8s %8s %8s\n", "run", "itself", "check", "find", "next", "ql_run");
    for (size_t i = 0; i < sizeof programs / sizeof *programs; i++) {
        programs[i].make(programs[i].levels);
        print_run(programs[i].name, FEW_STEPS);
    }
    for (; *names; names++) {
        const char *slash = strrchr(*names, '/');
        if (!read_program(*names))
            return 0;
        print_run(slash ? slash + 1 : *names, MOST_STEPS);
    }
    return 1;
}

/* A read, which goes from line to line and takes the same for every text. */
static void print_read(void)
{
    static const uint8_t text[] = "QL\t1\nT\tb\nM\t0\t0\t0\nE\t1\t1\n";
    forget();
    step(1);
    ql_verdict verdict = ql_read(text, sizeof text - 1, letters, QL_MOST_TYPE_CELLS, nodes, QL_MOST_TERM_CELLS);
    step(0);
    if (verdict.number != QL_DONE)
        refused("read", verdict);
    printf("\nql_read: %zu\n", watched[WHOLE_READ].deepest);
}

/* Takes the addresses of the functions that are watched. */
static int read_symbols(const char *name)
{
    char line[1024];
    FILE *symbols = fopen(name, "r");
    if (!symbols) {
        perror(name);
        return 0;
    }
    while (fgets(line, sizeof line, symbols)) {
        char *symbol;
        uintptr_t address = (uintptr_t)strtoull(line, &symbol, 16);
        symbol += strspn(symbol, " ");
        symbol[strcspn(symbol, "\n")] = 0;
        for (int i = 0; i < WATCHED; i++)
            if (strcmp(symbol, watched[i].symbol) == 0)
                watched[i].address = address;
    }
    fclose(symbols);
    for (int i = 0; i < WATCHED; i++) {
        if (watched[i].address == 0) {
            fprintf(stderr, "the library keeps no function %s\n", watched[i].symbol);
            return 0;
        }
    }
    return 1;
}

int main(int argc, char **argv)
{
    static char handlers[1 << 16];
    stack_t stack = {.ss_sp = handlers, .ss_size = sizeof handlers};
    struct sigaction action = {.sa_sigaction = on_instruction, .sa_flags = SA_SIGINFO | SA_ONSTACK};
    if (argc < 2 || !read_symbols(argv[1]))
        return 1;
    if (sigaltstack(&stack, NULL) != 0 || sigaction(SIGTRAP, &action, NULL) != 0) {
        perror("stack");
        return 1;
    }
    print_read();
    for (size_t i = 0; i < sizeof calls / sizeof *calls; i++)
        print_call(&calls[i]);
    return print_runs(argv + 2) ? 0 : 1;
}
