/* The calls of the static library libexported.a, for C99 and C++.
 *
 * A table is two arguments, a pointer and a count of places. Pointers are valid for their count and
 * not null, even for count 0, and no table that is written overlaps another one. Nothing is kept
 * between calls. Cells count from 0, lines from 1. What each fault means is told in docs/FAULTS.md,
 * the cells and their letters in docs/CALCULUS.md.
 */
#ifndef QL_INCLUDED
#define QL_INCLUDED

#include <stddef.h>
#include <stdint.h>

#ifdef __cplusplus
extern "C" {
#endif

/* Limits. */
enum {
    QL_MOST_TYPE_CELLS = 256,     /* type cells of a program */
    QL_MOST_TERM_CELLS = 512,     /* term cells of a program */
    QL_MOST_RUNNING_CELLS = 1024, /* cells of a running term, and of a value */
    QL_MOST_BINDERS = 32,         /* binders in scope at a cell of a program */
    QL_HANDLES = 32,              /* every handle of a qubit is below this */
    QL_TAPE_CAPACITY = 8,         /* qubits live at once on the tape of a run */
    QL_TAPE_PULSES = 64           /* pulses of the tape of a run */
};

/* A term cell: the ASCII code of its op's letter, its argument, and its claim, a place in the table
 * of type cells. The cells of running terms and of values claim 0. A type cell is a letter's code. */
typedef struct {
    uint32_t letter;
    uint16_t argument;
    uint16_t claim;
} ql_node;

/* What a pulse of the tape did. */
typedef struct {
    uint8_t kind;  /* a ql_pulse_kind */
    uint8_t what;  /* the bit that was prepared, a ql_gate, or the outcome that was read */
    uint8_t on[3]; /* the handles, as many as the kind and the gate take, and zeros behind them */
} ql_pulse;

typedef enum {
    QL_PULSE_NONE = 0, /* the pulse was not spent */
    QL_PULSE_PREPARED = 1,
    QL_PULSE_GATE = 2,
    QL_PULSE_READ = 3
} ql_pulse_kind;

/* The gates by their numbers: five on one qubit, two on two, and one on three. */
typedef enum {
    QL_GATE_H = 0,
    QL_GATE_X = 1,
    QL_GATE_Z = 2,
    QL_GATE_S = 3,
    QL_GATE_T = 4,
    QL_GATE_CNOT = 5,
    QL_GATE_SWAP = 6,
    QL_GATE_TOFFOLI = 7
} ql_gate;

/* The answer of a call. Each call tells which of the numbers it uses; the others are 0. */
typedef struct {
    uint16_t number;     /* QL_DONE, QL_BUDGET_SPENT, or the number of the fault */
    uint16_t rule;       /* a ql_rule */
    uint64_t place;      /* of a fault: a line, a cell, or steps made; else the cell of the rule */
    uint64_t steps;      /* steps made */
    uint64_t type_cells; /* how many type cells there are */
    uint64_t term_cells; /* how many term cells there are */
} ql_verdict;

/* The numbers of verdicts; the other rows of the sheet in docs/FAULTS.md are met by no call here. */
typedef enum {
    QL_DONE = 0,         /* nothing is refused; of a run: it stopped at a value */
    QL_BUDGET_SPENT = 1, /* the run made as many steps as its budget allows */

    QL_FAULT_HEADER = 11, /* line 1 is not the header */
    QL_FAULT_LINE = 12,   /* the line may not stand there, or its fields or letters are wrong */
    QL_FAULT_NUMBER = 13, /* a number field is malformed */
    QL_FAULT_FULL = 14,   /* more cells than a program may have */
    QL_FAULT_END = 15,    /* the text ends where a line is due, or the counts differ */

    QL_FAULT_TOO_MANY_CELLS = 20, /* more cells than a program or a running term may have */
    QL_FAULT_BAD_CELL = 21,       /* an unknown letter, a stored q, or a wrong argument */
    QL_FAULT_NOT_WHOLE = 22,      /* the types are not whole trees, or the term not exactly one */
    QL_FAULT_CLAIM_OUTSIDE = 23,  /* a claim is no place of the type table */
    QL_FAULT_TOO_DEEP = 24,       /* one binder too many in scope */
    QL_FAULT_NO_BINDER = 25,      /* no such binder */
    QL_FAULT_WRONG_CLAIM = 26,    /* a claim against its rule */
    QL_FAULT_USED_TWICE = 27,     /* two parts use a variable that is not duplicable */
    QL_FAULT_CAPTURES = 28,       /* a duplicable function uses an outer variable that is not */

    QL_FAULT_AT_VALUE = 35, /* the term is a value and has no next term */
    QL_FAULT_NO_RULE = 36,  /* the term is no value and has no rule */
    QL_FAULT_TOO_LONG = 37, /* the next term would have too many cells */

    QL_FAULT_NO_PULSES = 41,    /* no pulse is left */
    QL_FAULT_TOO_MANY_LIVE = 42 /* as many qubits are live as the tape holds */
} ql_number;

/* The rules by their numbers. */
typedef enum {
    QL_RULE_NONE = 0,     /* the term is a value */
    QL_RULE_FUNCTION = 1, /* a function gets its argument */
    QL_RULE_PAIR = 2,     /* a pair is taken apart */
    QL_RULE_THEN = 3,     /* the condition is 1 */
    QL_RULE_ELSE = 4,     /* the condition is 0 */
    QL_RULE_PREPARE = 5,  /* the register is asked for a qubit, and answers its handle */
    QL_RULE_READ = 6,     /* the register is asked to read a qubit, and answers the outcome */
    QL_RULE_GATES = 7     /* the register is asked for a gate, and answers nothing */
} ql_rule;

/* What ql_next takes as the register's answer: a handle, below QL_HANDLES, or one of these. */
typedef enum {
    QL_NOTHING = 256, /* to a rule that asks for nothing, or for a gate */
    QL_ZERO = 257,    /* the outcome 0 */
    QL_ONE = 258      /* the outcome 1 */
} ql_answer;

/* Every table that is written gets as much as it has room for, and is not refused for being short:
 * hand over as many places as the comment names. */

/* Reads a stored program to the front of QL_MOST_TYPE_CELLS letters and QL_MOST_TERM_CELLS nodes.
 *   done:    type_cells, term_cells; the places behind them become 0
 *   refused: QL_FAULT_HEADER to QL_FAULT_END, the line in place; the tables have the cells of the
 *            lines before it, and 0 behind them */
ql_verdict ql_read(const uint8_t *text, size_t text_len,
                   uint32_t *letters, size_t letters_len,
                   ql_node *nodes, size_t nodes_len);

/* Checks a program, of as many letters and nodes as its cells.
 *   refused: QL_FAULT_TOO_MANY_CELLS to QL_FAULT_CAPTURES, the cell in place */
ql_verdict ql_check(const uint32_t *letters, size_t letters_len,
                    const ql_node *nodes, size_t nodes_len);

/* Finds the rule that applies to a running term, of as many nodes as its cells.
 *   done:    rule, and its cell in place
 *   refused: QL_FAULT_TOO_MANY_CELLS to QL_FAULT_NOT_WHOLE, QL_FAULT_NO_RULE, the cell in place */
ql_verdict ql_find(const ql_node *nodes, size_t nodes_len);

/* Makes a step with the register's answer, and writes the next term to QL_MOST_RUNNING_CELLS nodes.
 *   done:    rule, its cell in place, term_cells; the places behind the next term become 0
 *   refused: as by ql_find; QL_FAULT_AT_VALUE; QL_FAULT_TOO_LONG, the rule's cell in place; the
 *            table stays as it was */
ql_verdict ql_next(const ql_node *nodes, size_t nodes_len, uint64_t answer,
                   ql_node *to, size_t to_len);

/* Checks a program, loads it on a new tape, makes steps up to a value or the budget, and writes the
 * value to QL_MOST_RUNNING_CELLS nodes, its type to QL_MOST_TYPE_CELLS kinds, and the pulses to
 * QL_TAPE_PULSES pulses. Pulse k reads outcome k, odd for 1; there are as many pulses as outcomes,
 * at most QL_TAPE_PULSES.
 *   done:    steps, term_cells of the value, type_cells of its type; nothing counts behind them
 *   spent:   QL_BUDGET_SPENT, steps; of the tables only the pulses count
 *   refused: as by ql_check, and the tables stay as they were; or at a step QL_FAULT_TOO_LONG,
 *            QL_FAULT_NO_PULSES or QL_FAULT_TOO_MANY_LIVE, the steps made before it in steps and in
 *            place; of the tables only the pulses count */
ql_verdict ql_run(const uint32_t *letters, size_t letters_len,
                  const ql_node *nodes, size_t nodes_len,
                  const uint8_t *outcomes, size_t outcomes_len, uint64_t budget,
                  ql_node *value, size_t value_len,
                  uint32_t *kinds, size_t kinds_len,
                  ql_pulse *pulses, size_t pulses_len);

#ifdef __cplusplus
}
#endif

#endif
