/* Plays one shot of a stored program and prints its listing, as qlshot does, over the proved library.
 * usage: main [FILE]     (without FILE the program is on standard input)
 */
#include <inttypes.h>
#include <stdio.h>

#include "ql.h"

/* Bytes that are read of a program at most, and steps of its run. */
enum { MOST_BYTES = 16384, BUDGET = 1000 };

/* Why a run stopped, in the S line. */
enum { AT_VALUE = 0, AT_BUDGET = 1, AT_REFUSAL = 2 };

/* The cells of a program. */
struct program {
    uint32_t letters[QL_MOST_TYPE_CELLS];
    ql_node nodes[QL_MOST_TERM_CELLS];
    size_t type_cells, term_cells;
};

/* What a run hands back. */
struct run {
    ql_verdict verdict;
    ql_node value[QL_MOST_RUNNING_CELLS];
    uint32_t kinds[QL_MOST_TYPE_CELLS];
    ql_pulse pulses[QL_TAPE_PULSES];
};

static void print_refusal(ql_verdict verdict)
{
    printf("X %" PRIu16 " %" PRIu64 "\n", verdict.number, verdict.place);
}

/* The value and its type. */
static void print_value(const struct run *run)
{
    for (uint64_t i = 0; i < run->verdict.type_cells; i++)
        printf("T %c\n", (char)run->kinds[i]);
    for (uint64_t i = 0; i < run->verdict.term_cells; i++)
        printf("M %c %" PRIu16 "\n", (char)run->value[i].letter, run->value[i].argument);
}

static unsigned handles_of(unsigned gate)
{
    return gate == QL_GATE_TOFFOLI ? 3 : gate == QL_GATE_CNOT || gate == QL_GATE_SWAP ? 2 : 1;
}

/* A dash stands for each handle that the gate does not take. */
static void print_gate(unsigned pulse, ql_pulse made)
{
    printf("J %u G %u", pulse, made.what);
    for (unsigned i = 0; i < 3; i++) {
        if (i < handles_of(made.what))
            printf(" %u", made.on[i]);
        else
            printf(" -");
    }
    printf("\n");
}

/* A line for each pulse up to the first that was not spent. */
static void print_pulses(const ql_pulse *pulses)
{
    for (unsigned k = 0; k < QL_TAPE_PULSES && pulses[k].kind != QL_PULSE_NONE; k++) {
        if (pulses[k].kind == QL_PULSE_GATE) {
            print_gate(k, pulses[k]);
        } else {
            char call = pulses[k].kind == QL_PULSE_PREPARED ? 'P' : 'R';
            printf("J %u %c %u %u - -\n", k, call, pulses[k].on[0], pulses[k].what);
        }
    }
}

static void print_run(const struct run *run)
{
    ql_verdict verdict = run->verdict;
    int stop = verdict.number == QL_DONE           ? AT_VALUE
               : verdict.number == QL_BUDGET_SPENT ? AT_BUDGET
                                                   : AT_REFUSAL;
    printf("S %" PRIu64 " %d\n", verdict.steps, stop);
    if (stop == AT_VALUE)
        print_value(run);
    print_pulses(run->pulses);
    if (stop == AT_REFUSAL)
        print_refusal(verdict);
}

/* Runs an accepted program on a tape whose pulse k reads k mod 2. */
static void run_program(const struct program *program, struct run *run)
{
    uint8_t outcomes[QL_TAPE_PULSES];
    for (unsigned k = 0; k < QL_TAPE_PULSES; k++)
        outcomes[k] = k % 2;
    run->verdict = ql_run(program->letters, program->type_cells, program->nodes, program->term_cells,
                          outcomes, QL_TAPE_PULSES, BUDGET, run->value, QL_MOST_RUNNING_CELLS,
                          run->kinds, QL_MOST_TYPE_CELLS, run->pulses, QL_TAPE_PULSES);
}

/* Reads and checks a program: QL_DONE, or why it is refused. */
static ql_verdict accept_program(const uint8_t *text, size_t len, struct program *program)
{
    ql_verdict verdict = ql_read(text, len, program->letters, QL_MOST_TYPE_CELLS, program->nodes,
                                 QL_MOST_TERM_CELLS);
    if (verdict.number != QL_DONE)
        return verdict;
    program->type_cells = verdict.type_cells;
    program->term_cells = verdict.term_cells;
    return ql_check(program->letters, program->type_cells, program->nodes, program->term_cells);
}

int main(int argc, char **argv)
{
    static uint8_t text[MOST_BYTES];
    static struct program program;
    static struct run run;

    FILE *input = argc > 1 ? fopen(argv[1], "rb") : stdin;
    if (!input) {
        perror(argv[1]);
        return 1;
    }
    size_t len = fread(text, 1, sizeof text, input);
    if (ferror(input)) {
        perror("the program cannot be read");
        return 1;
    }
    ql_verdict verdict = accept_program(text, len, &program);
    if (verdict.number == QL_DONE) {
        run_program(&program, &run);
        print_run(&run);
    } else {
        print_refusal(verdict);
    }
    if (fflush(stdout) != 0) {
        perror("the listing cannot be printed");
        return 1;
    }
    return 0;
}
