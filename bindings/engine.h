/* The engine for tree-walking automata: target/staticlib/libengine.a, which `tools/staticlib engine` writes (x86-64 Linux).
 *
 * Automata and trees are given as the bytes of their files (document 01's walker and letter files; docs/REFUSALS.md has both layouts and
 * the refusals). Every function answers every input: a bad file gets its refusal. The contracts are in crates/engine_c/src/lib.rt, the
 * encodings in crates/numbering/specs/Numbers.antt.
 *
 * Pointers. A pointer with a length points at so many bytes, or more; it is never null, also where the length is 0. A pointer to numbers
 * is aligned as its type is. What a function writes to (told, growth, answers, growths, out, log, counts, tally, text, a survey's plan) overlaps
 * nothing else that it was given; what it only reads may overlap. Nothing is kept after the call.
 *
 * What is written. `told` is always written, all three numbers: what the answer tells, or, of a refusal, its number (1 to 14 of document
 * 01's table, 15 to 23 of document 02), the file (0 automaton, 1 tree, 2 neither), and the place that the table names; what an answer does
 * not tell is 0. `growth` is always written too: one number. `answers`, `growths`, `plan`, `out`, `log`, `counts`, `tally` and `text` are changed
 * only as said below, and no other memory is.
 *
 * Threads. Calls share nothing: there is no state between them, no allocation, no lock, no file and no signal. Any number of threads may
 * call at one time, each with memory of its own to be written to.
 *
 * Stack. A call takes at most so many bytes above its caller, whatever the input: measured on the inputs that take most, and held there, by
 * bindings/stack.c. The first call in a program may take a few kilobytes more, where the dynamic linker looks up memset, memcpy and memmove. */
#ifndef ENGINE_H
#define ENGINE_H

#include <stddef.h>
#include <stdint.h>

#define ENGINE_JUDGE_STACK (92 * 1024)
#define ENGINE_ACCEPTS_STACK (120 * 1024)
#define ENGINE_JUDGE_ALL_STACK (720 * 1024)
#define ENGINE_SURVEY_STACK (64 * 1024)
#define ENGINE_WITNESS_STACK (20 * 1024)
#define ENGINE_QUICK_STACK (52 * 1024)
#define ENGINE_SINGLE_STACK (44 * 1024)
#define ENGINE_CANONICAL_STACK (56 * 1024)
#define ENGINE_MARKUP_STACK (36 * 1024)
#define ENGINE_WATCH_STACK (76 * 1024)
#define ENGINE_COMPARE_STACK (72 * 1024)
#define ENGINE_COUNT_STACK (4 * 1024)
#define ENGINE_PERCENT_STACK (4 * 1024)
#define ENGINE_TALLY_STACK (720 * 1024)
#define ENGINE_REPORT_STACK (720 * 1024)

#ifdef __cplusplus
extern "C" {
#endif

/* Whether an automaton accepts a tree, and how many pairs of states closing adds. At each node, at its own place in the tree, the given table
 * has the pairs (p, q) of a rule that stays, from p to q, and those of a rule down from p to p' and a crossing (p', q) of that part: a run that
 * enters the part in p' and leaves it in q. The closed table has these, (p, p) for every state, and (p, q) wherever a chain of given pairs leads
 * from p to q. `growth` is how many pairs the closed table has that the given one lacked, added up over all nodes: at most 576 x nodes.
 * 0 accepted, 1 other (judged, not accepted), 2 refused (number, file, place), with growth 0. */
uint32_t engine_judge(const uint8_t *automaton, size_t automaton_length, const uint8_t *tree, size_t tree_length, size_t growth[1],
                      size_t told[3]);

/* Whether an automaton accepts a tree: what engine_judge answers and tells, without the growth. It is faster, a search over configurations.
 * 0 accepted, 1 other (judged, not accepted), 2 refused (number, file, place). */
uint32_t engine_accepts(const uint8_t *automaton, size_t automaton_length, const uint8_t *tree, size_t tree_length, size_t told[3]);

/* Judges trees' files end to end: a file's first block gives its length; refusals 1 to 4, and trees that stop inside a file, are the last answer.
 * Each file has three numbers in `answers`, in the order of the files: 0 accepted, 1 other, 2 refused; of a refusal its number and its place, else
 * 0 and 0. Each is what engine_judge answers of that file alone (the file of a refusal is 1). As many files are judged as there is room for, three
 * numbers each; 3 x (trees_length / 512 + 1) numbers have room for all. Each file that is judged has one number in `growths`, its growth, or 0 for
 * a refusal, as far as there is room; where `growths_length` is 0 no growth is found, and the call is faster. Later numbers of both stay. What is
 * found out about subtrees is kept from file to file while the call lasts, in memory on its stack, so that a call with many files is faster than
 * many calls.
 * 0 judged (the files), 1 the automaton's file is refused (number, file, place), and the answers and growths stay as they were. */
uint32_t engine_judge_all(const uint8_t *automaton, size_t automaton_length, const uint8_t *trees, size_t trees_length, size_t *answers,
                          size_t answers_length, size_t *growths, size_t growths_length, size_t told[3]);

/* Looks for a tree that an automaton accepts. Where one is found, the plan that builds it goes to the front of the buffer, three bytes a
 * row: symbol, left row, right row, or 255 255 for a leaf; the last row is the tree. Later bytes, and the whole buffer on other answers,
 * stay as they were. A buffer of under 195 bytes is refused.
 * 0 found (height, rows), 1 open: over 64 classes of trees (height), 2 empty: no tree is accepted (height), 3 refused (number, file,
 * place). */
uint32_t engine_survey(const uint8_t *file, size_t length, uint8_t *plan, size_t plan_length, size_t told[3]);

/* Writes the tree that a plan builds, for an automaton, as a tree's file at the front of the output: a plan is what engine_survey left at the
 * front of its buffer, three bytes for each of its rows, or any other of that form. A row that is used more than once is written each time.
 * Later bytes stay; a call that is refused changes none.
 * 0 written (length), 1 refused (number, file, place): after the automaton's refusals 15, no plan for it (the first bad row, or 0 where the
 * length is wrong), 16, over 4,096 nodes (0), and 13, the output is too short (the length of the file). */
uint32_t engine_witness(const uint8_t *file, size_t length, const uint8_t *plan, size_t plan_length, uint8_t *out, size_t out_length,
                        size_t told[3]);

/* The quick check of an automaton.
 * 0 clear: no tree is accepted, 1 unsure, 2 refused (number, file, place). */
uint32_t engine_quick(const uint8_t *file, size_t length, size_t told[3]);

/* Whether an automaton has at most one rule for each symbol, state and place. A rule with place 3 is one at each of its places, and equal
 * rules are one rule.
 * 0 single, 1 not single, 2 refused (number, file, place). */
uint32_t engine_single(const uint8_t *file, size_t length, size_t told[3]);

/* Writes an automaton's file in its one form to the front of the output: the same counts of states and symbols, the same three sets, and the
 * rules with place 3 spread over places 0, 1 and 2, equal ones once, in rising order of their five bytes. Later bytes stay; a call that is
 * refused changes none.
 * 0 written (length), 1 refused (number, file, place): after the automaton's refusals 17, more than 512 rules remain (0), and 13, the output
 * is too short (the length of the form). */
uint32_t engine_canonical(const uint8_t *file, size_t length, uint8_t *out, size_t out_length, size_t told[3]);

/* Writes the tree of an element text, for an automaton, as a tree's file at the front of the output. A text is one or more elements; an element
 * is <n>, elements or none, and </n>, with n from 0 to 99; spaces, tabs and line ends may stand around tags. An element is a branch: its left
 * part is what stands inside it, its right part what follows it; where nothing stands there is a leaf of symbol 0. Later bytes stay; a call
 * that is refused changes none. However deep the elements are, the stack stays as said above.
 * 0 written (length), 1 refused (number, file, place): after the automaton's refusals 18, a text of over 32,768 bytes (32,768) or none (the
 * first byte at which no continuation could be right, or the length), 19, symbol 0 is no leaf (0) or a tag's is no branch (its <), then, as
 * of the tree's file, 4, over 4,096 nodes (2), and 12, a height over 64 (the first node that is too far below the root), and 13, the output
 * is too short (the length of the file). */
uint32_t engine_markup(const uint8_t *file, size_t length, const uint8_t *text, size_t text_length, uint8_t *out, size_t out_length,
                       size_t told[3]);

/* Follows the one run of a single automaton with one start state on a tree, and logs each position at the front of the buffer, three bytes an
 * entry: the node, its number in preorder from 0, low byte first, and the state. The first entry is the root in the start state, so that there
 * is one entry more than steps. Before each step the first of these that holds is the answer: passed, the run is at the root in a final state;
 * stuck, no rule applies; circling, the steps made are nodes x states; spent, they are the budget. Bytes after the entries stay; a call that
 * is refused changes none.
 * 0 passed (steps), and the tree is accepted; 1 stuck (steps) or 2 circling (steps), and it is not; 3 spent (steps), which does not tell;
 * 4 refused (number, file, place): after the automaton's refusals and the tree's 20, the automaton is not single (0), 21, it has not exactly
 * one start state (the number there are), 22, a budget over 20,000 (20,000), and 13, the log is shorter than 3 x (budget + 1) (that length). */
uint32_t engine_watch(const uint8_t *automaton, size_t automaton_length, const uint8_t *tree, size_t tree_length, size_t budget,
                      uint8_t *log, size_t log_length, size_t told[3]);

/* Holds two logs of an automaton on a tree together, of the form that engine_watch writes and of any length; the automaton need not be single.
 * `counts` is always written, all three numbers: the length in bytes of the part, which is the longest opening stretch of whole entries in which
 * the two logs agree, byte for byte, and so the front of the first log itself; how many entries from the start of the first log are a lawful
 * walk, the root in a start state and then each entry reached from the one before by a rule; and how many of the second. An entry whose node or
 * state does not exist is none of these. The logs may be one and the same.
 * 0 compared, 1 refused (number, file, place), with counts 0, 0 and 0: after the automaton's refusals and the tree's 23, a log's length is no
 * multiple of three (0 the first log, which is looked at first, 1 the second). */
uint32_t engine_compare(const uint8_t *automaton, size_t automaton_length, const uint8_t *tree, size_t tree_length, const uint8_t *first,
                        size_t first_length, const uint8_t *second, size_t second_length, size_t counts[3], size_t told[3]);

/* Counts one outcome more on a tally of three numbers: accepted, other, refused. The outcome is what engine_judge or engine_accepts
 * answered: 0 accepted, 1 other, any other number refused. A tally whose numbers add to 1,000,000 or more stays as it was.
 * 0 counted, 1 refused (14, 2, 0). */
uint32_t engine_count(uint32_t tally[3], uint32_t outcome, size_t told[3]);

/* 100 times accepted over accepted and other, to the nearest, a half to the even number; 0 where both are 0. */
uint32_t engine_percent(uint32_t accepted, uint32_t other);

/* Counts trees' files end to end (the report's batch) onto a tally of three numbers, which need not be 0: a file's first block gives its
 * length; refusals 1 to 4, and trees that stop inside a file, count one refused and are the end; so is a full tally, uncounted.
 * 0 tallied, 1 the automaton's file is refused (number, file, place), and the tally stays as it was. */
uint32_t engine_tally(const uint8_t *automaton, size_t automaton_length, const uint8_t *trees, size_t trees_length, uint32_t tally[3],
                      size_t told[3]);

/* The report's text on an automaton's file and trees' files end to end, at the front of the buffer; its length. Later bytes stay. */
size_t engine_report(const uint8_t *automaton, size_t automaton_length, const uint8_t *trees, size_t trees_length, uint8_t text[357]);

#ifdef __cplusplus
}
#endif

#endif
