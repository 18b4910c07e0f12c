/* Measures the stack that each function takes above its caller, on the inputs that take most, and fails where one takes more than engine.h
 * says. A call is made on a stack that was filled with one byte; what it took reaches down to the lowest byte that changed. */
#include "engine.h"
#include <stdio.h>
#include <stdlib.h>
#include <string.h>
#include <ucontext.h>

enum { CONTENT = 508, BLOCK = 512, STACK = 1 << 21, FILLED = 0xA5, HEIGHT = 64, WALKER = 6 * BLOCK, LETTER = 9 * BLOCK, TEXT = 32768 };
enum { BUDGET = 20000, LOG = 3 * (BUDGET + 1) };

/* ---- files */

static void write_check(uint8_t *block, uint32_t number)
{
    uint32_t sum = number + 1;
    for (int at = 0; at < CONTENT; at += 4)
        sum += block[at] | (uint32_t)block[at + 1] << 8 | (uint32_t)block[at + 2] << 16 | (uint32_t)block[at + 3] << 24;
    for (int i = 0; i < 4; i++)
        block[CONTENT + i] = (uint8_t)(sum >> 8 * i);
}

/* A file of the fewest blocks that hold a payload; its length. */
static size_t write_file(uint8_t *file, const uint8_t *payload, size_t length)
{
    size_t blocks = (length + CONTENT - 1) / CONTENT;
    memset(file, 0, blocks * BLOCK);
    for (size_t b = 0; b < blocks; b++) {
        size_t from = b * CONTENT, left = length - from;
        memcpy(file + b * BLOCK, payload + from, left < CONTENT ? left : CONTENT);
        write_check(file + b * BLOCK, (uint32_t)b);
    }
    return blocks * BLOCK;
}

static uint8_t payload[6 * CONTENT];
static unsigned rules;

static void add_rule(int symbol, int state, int place, int move, int next)
{
    uint8_t *rule = payload + 20 + 5 * rules++;
    rule[0] = (uint8_t)symbol, rule[1] = (uint8_t)state, rule[2] = (uint8_t)place, rule[3] = (uint8_t)move, rule[4] = (uint8_t)next;
}

/* The file of the 512 rules that were added, over 24 states and 32 symbols, of which all but the last branch. */
static size_t write_rules(uint8_t *file, uint32_t final)
{
    uint32_t sets[3] = {1u << 16, final, 0x7fffffff};
    payload[0] = 87, payload[1] = 24, payload[2] = 32, payload[4] = 0, payload[5] = 2;
    for (int i = 0; i < 12; i++)
        payload[8 + i] = (uint8_t)(sets[i / 4] >> 8 * (i % 4));
    return write_file(file, payload, 20 + 5 * 512);
}

/* The largest walker: 24 states, 32 symbols, of which 31 branch and the last is the leaf, 512 rules. It counts the nodes of left spines
 * modulo 3, 4 and 7, so that the survey goes on to its last round, and stays at the root for the remaining rules. */
static size_t write_walker(uint8_t *file, uint32_t final)
{
    static const int first[3] = {0, 3, 7}, length[3] = {3, 4, 7};
    rules = 0;
    for (int cycle = 0; cycle < 3; cycle++) {
        add_rule(31, first[cycle], 1, 1, 14);
        for (int i = 0; i < length[cycle]; i++)
            for (int symbol = 0; symbol < 31; symbol++)
                add_rule(symbol, first[cycle] + i, 1, 2, first[cycle] + (i + 1) % length[cycle]);
    }
    for (int symbol = 0; symbol < 31; symbol++)
        add_rule(symbol, 14, 1, 1, 14);
    while (rules < 512)
        add_rule((int)rules % 31, 16 + (int)rules % 7, 0, 0, 16 + (int)(rules + 1) % 7);
    return write_rules(file, final);
}

/* The same counts and symbols, and 512 rules with place 3, which are 1,536 rules when spread; no state is final. */
static size_t write_spread(uint8_t *file)
{
    rules = 0;
    while (rules < 512)
        add_rule((int)rules % 32, (int)rules / 32, 3, 0, (int)rules / 32);
    return write_rules(file, 0);
}

/* The same counts and symbols, and rules by which a walk goes round the whole letter, again and again, in three states: arriving, back from the
 * left part, back from the right part. They are said more than once, and the last are a second rule where the walker is not to be single. */
static size_t write_round(uint8_t *file, int single)
{
    static const int arriving = 16, between = 17, done = 18;
    rules = 0;
    while (rules < 504) {
        int symbol = (int)rules / 7 % 31;
        add_rule(symbol, arriving, 3, 2, arriving);
        add_rule(symbol, between, 3, 3, arriving);
        add_rule(symbol, done, 0, 0, arriving);
        add_rule(symbol, done, 1, 1, between);
        add_rule(symbol, done, 2, 1, done);
        add_rule(31, arriving, 1, 1, between);
        add_rule(31, arriving, 2, 1, done);
    }
    while (rules < 512)
        add_rule(31, arriving, 2, 1, single ? done : between);
    return write_rules(file, 0);
}

static uint8_t nodes[4 + 4096];
static unsigned count;

static void add_node(int symbol)
{
    nodes[4 + count++] = (uint8_t)symbol;
}

static void add_full(int height)
{
    add_node(height == 0 ? 31 : height);
    for (int part = 0; height > 0 && part < 2; part++)
        add_full(height - 1);
}

/* From a level of a comb down to level 64, on one side; on the other are leaves, or, if large, full trees for 4,095 nodes in all. */
static void add_comb(int left, int large, int level)
{
    if (level == HEIGHT) {
        add_full(0);
        return;
    }
    add_node(0);
    if (left)
        add_comb(left, large, level + 1);
    add_full(!large ? 0 : level < 31 ? 6 : level < 61 ? 1 : 0);
    if (!left)
        add_comb(left, large, level + 1);
}

/* The first two are refused. */
enum { NONE, HIGH, LEFT, RIGHT, LARGE_LEFT, LARGE_RIGHT, FULL, LETTERS };

static size_t write_letter(uint8_t *file, int letter)
{
    count = 0;
    if (letter == HIGH) {
        add_node(0);
        add_full(0);
    }
    if (letter == FULL)
        add_full(11);
    else
        add_comb(letter == LEFT || letter == LARGE_LEFT, letter >= LARGE_LEFT, 0);
    nodes[0] = 84, nodes[1] = 0, nodes[2] = (uint8_t)count, nodes[3] = (uint8_t)(count >> 8);
    return write_file(file, nodes, 4 + count);
}

/* A walker and a letter; and the walker that goes round, with the log of its walk on the letter. */
static struct {
    uint8_t walker[WALKER], letter[LETTER], round[WALKER], log[LOG];
    size_t walker_length, letter_length, round_length, log_length;
} input;

static size_t told[3], counts[3], growth[1];
static uint32_t tally[3], answer;

static void make_log(void)
{
    input.round_length = write_round(input.round, 1);
    uint32_t end = engine_watch(input.round, input.round_length, input.letter, input.letter_length, BUDGET, input.log, LOG, told);
    input.log_length = end < 4 ? 3 * (told[0] + 1) : 0;
}

/* Each pair of a walker (none, the one, it with the start state final, and the one with place 3) and a letter (none, a comb that is
 * one level too high, which 12 refuses, then combs: left, right, and both large; and the full tree). */
enum { LARGEST = 1, PASSING, SPREAD, WALKERS, INPUTS = WALKERS * LETTERS };

static void make_input(int number)
{
    int walker = number / LETTERS, letter = number % LETTERS;
    if (walker == NONE)
        input.walker_length = 0;
    else if (walker == SPREAD)
        input.walker_length = write_spread(input.walker);
    else
        input.walker_length = write_walker(input.walker, walker == PASSING ? 1u << 16 : 1u << 23);
    input.letter_length = letter == NONE ? 0 : write_letter(input.letter, letter);
    make_log();
}

/* ---- calls */

static void call_judge(void)
{
    answer = engine_judge(input.walker, input.walker_length, input.letter, input.letter_length, growth, told);
}

static void call_accepts(void)
{
    answer = engine_accepts(input.walker, input.walker_length, input.letter, input.letter_length, told);
}

static uint32_t judge_all(size_t growths_length)
{
    static size_t answers[3];
    return engine_judge_all(input.walker, input.walker_length, input.letter, input.letter_length, answers, 3, growth, growths_length, told);
}

/* Without the growth, and with it. */
static void call_judge_all(void)
{
    judge_all(0);
    answer = judge_all(1);
}

static void call_survey(void)
{
    static uint8_t plan[195];
    answer = engine_survey(input.walker, input.walker_length, plan, sizeof plan, told);
}

/* A comb of 65 rows, and the most nodes that 12 rows can make. */
static void call_witness(void)
{
    static uint8_t out[LETTER];
    uint8_t comb[195] = {31, 255, 255}, full[36] = {31, 255, 255};
    for (uint8_t row = 1; row < 65; row++)
        comb[3 * row + 1] = (uint8_t)(row - 1);
    for (uint8_t row = 1; row < 12; row++)
        full[3 * row + 1] = full[3 * row + 2] = (uint8_t)(row - 1);
    answer = engine_witness(input.walker, input.walker_length, comb, sizeof comb, out, sizeof out, told);
    answer |= engine_witness(input.walker, input.walker_length, full, sizeof full, out, sizeof out, told);
}

static void call_quick(void)
{
    answer = engine_quick(input.walker, input.walker_length, told);
}

static void call_single(void)
{
    answer = engine_single(input.walker, input.walker_length, told);
}

static void call_canonical(void)
{
    static uint8_t out[WALKER];
    answer = engine_canonical(input.walker, input.walker_length, out, sizeof out, told);
}

/* So many elements of symbol 1 inside one another, which are closed or not; the length of the text. */
static size_t nest(uint8_t *text, size_t depth, int closed)
{
    for (size_t i = 0; i < depth; i++)
        memcpy(text + 3 * i, "<1>", 3);
    for (size_t i = 0; closed && i < depth; i++)
        memcpy(text + 3 * depth + 4 * i, "</1>", 4);
    return depth * (closed ? 7 : 3);
}

/* The deepest text, which ends early, the deepest that is whole, and one as deep as a tree may be: by the walker, of which symbol 0 is no leaf,
 * and by one of which it is the only leaf, so that the last text is written. */
static void call_markup(void)
{
    static uint8_t text[TEXT], out[LETTER], walker[BLOCK];
    static const uint8_t leaf[20] = {87, 1, 32, [8] = 1, [12] = 1, [16] = 0xfe, 0xff, 0xff, 0xff};
    static const size_t depths[3] = {TEXT / 3, TEXT / 7, HEIGHT};
    size_t length = write_file(walker, leaf, sizeof leaf);
    for (int i = 0; i < 3; i++) {
        size_t n = nest(text, depths[i], i > 0);
        engine_markup(input.walker, input.walker_length, text, n, out, sizeof out, told);
        answer = engine_markup(walker, length, text, n, out, sizeof out, told);
    }
}

static uint32_t watch(const uint8_t *walker, size_t walker_length, size_t budget, size_t log_length)
{
    static uint8_t log[LOG];
    return engine_watch(walker, walker_length, input.letter, input.letter_length, budget, log, log_length, told);
}

/* The walk of the walker, and of the one that goes round, with the largest budget; and refusals 20, 22 and 13. */
static void call_watch(void)
{
    static uint8_t second[WALKER];
    watch(input.walker, input.walker_length, BUDGET, LOG);
    watch(second, write_round(second, 0), BUDGET, LOG);
    watch(input.round, input.round_length, BUDGET + 1, LOG);
    watch(input.round, input.round_length, BUDGET, LOG - 1);
    answer = watch(input.round, input.round_length, BUDGET, LOG);
}

static uint32_t compare(const uint8_t *walker, size_t walker_length, size_t first_length, size_t second_length)
{
    return engine_compare(walker, walker_length, input.letter, input.letter_length, input.log, first_length, input.log, second_length,
                          counts, told);
}

/* The log beside itself, by the walker, and by the one that made it; and refusal 23 of either log. */
static void call_compare(void)
{
    compare(input.walker, input.walker_length, input.log_length, input.log_length);
    compare(input.round, input.round_length, LOG - 1, LOG);
    compare(input.round, input.round_length, LOG, LOG - 1);
    answer = compare(input.round, input.round_length, input.log_length, input.log_length);
}

static void call_count(void)
{
    answer = engine_count(tally, 0, told);
}

static void call_percent(void)
{
    answer = engine_percent(tally[0], tally[1]);
}

static void call_tally(void)
{
    answer = engine_tally(input.walker, input.walker_length, input.letter, input.letter_length, tally, told);
}

static void call_report(void)
{
    static uint8_t text[357];
    answer = (uint32_t)engine_report(input.walker, input.walker_length, input.letter, input.letter_length, text);
}

static const struct {
    const char *name;
    void (*call)(void);
    size_t limit;
} functions[] = {
    {"engine_judge", call_judge, ENGINE_JUDGE_STACK},
    {"engine_accepts", call_accepts, ENGINE_ACCEPTS_STACK},
    {"engine_judge_all", call_judge_all, ENGINE_JUDGE_ALL_STACK},
    {"engine_survey", call_survey, ENGINE_SURVEY_STACK},
    {"engine_witness", call_witness, ENGINE_WITNESS_STACK},
    {"engine_quick", call_quick, ENGINE_QUICK_STACK},
    {"engine_single", call_single, ENGINE_SINGLE_STACK},
    {"engine_canonical", call_canonical, ENGINE_CANONICAL_STACK},
    {"engine_markup", call_markup, ENGINE_MARKUP_STACK},
    {"engine_watch", call_watch, ENGINE_WATCH_STACK},
    {"engine_compare", call_compare, ENGINE_COMPARE_STACK},
    {"engine_count", call_count, ENGINE_COUNT_STACK},
    {"engine_percent", call_percent, ENGINE_PERCENT_STACK},
    {"engine_tally", call_tally, ENGINE_TALLY_STACK},
    {"engine_report", call_report, ENGINE_REPORT_STACK},
};

/* ---- measuring */

static uint8_t *stack;
static ucontext_t here, there;
static void (*called)(void);
static uint8_t *caller;

static void enter(void)
{
    caller = __builtin_frame_address(0);
    called();
}

/* How far below its caller's frame a call wrote. */
static size_t stack_of(void (*call)(void))
{
    memset(stack, FILLED, STACK);
    called = call;
    if (getcontext(&there) != 0)
        exit(1);
    there.uc_stack.ss_sp = stack;
    there.uc_stack.ss_size = STACK;
    there.uc_link = &here;
    makecontext(&there, enter, 0);
    if (swapcontext(&here, &there) != 0)
        exit(1);
    size_t lowest = 0;
    while (stack[lowest] == FILLED)
        lowest++;
    return (size_t)(caller - (stack + lowest));
}

static size_t most_of(void (*call)(void))
{
    size_t most = 0;
    for (int number = 0; number < INPUTS; number++) {
        make_input(number);
        size_t taken = stack_of(call);
        most = taken > most ? taken : most;
    }
    return most;
}

/* The number by which a letter is refused. */
static size_t refusal_of(int letter)
{
    return letter == NONE ? 1 : 12;
}

/* Whether this is the verdict, alone and with the growth, and the growth is right: 0 of a refusal, else from 1 to 576 a node, and of the walker
 * with place 3, of which 16 states stay, the other 8. Of letters end to end it is the same, and unwritten where there is no walker or no letter. */
static int judge_right(uint32_t verdict, int walker, int letter)
{
    size_t unwritten = growth[0] = 577 * 4096;
    call_accepts();
    if (answer != verdict)
        return 0;
    call_judge();
    size_t found = growth[0];
    size_t least = verdict == 2 ? 0 : walker == SPREAD ? 8 : 1, most = verdict == 2 ? 0 : walker == SPREAD ? 8 : 576;
    if (answer != verdict || found < least * count || found > most * count)
        return 0;
    growth[0] = unwritten;
    call_judge_all();
    return answer == (walker == NONE) && growth[0] == (walker == NONE || letter == NONE ? unwritten : found);
}

/* Whether the last walk is refused with the letter, circles on a comb of 129 nodes, and is spent on a large letter. */
static int watch_right(int letter)
{
    if (letter <= HIGH)
        return answer == 4 && told[0] == refusal_of(letter) && told[1] == 1;
    return letter < LARGE_LEFT ? answer == 2 && told[0] == 129 * 24 : answer == 3 && told[0] == BUDGET;
}

/* Whether the logs are refused with the letter, and are otherwise a lawful walk to their end. */
static int compare_right(int letter)
{
    if (letter <= HIGH)
        return answer == 1 && told[0] == refusal_of(letter) && told[1] == 1 && counts[0] + counts[1] + counts[2] == 0;
    size_t entries = letter < LARGE_LEFT ? 129 * 24 + 1 : BUDGET + 1;
    return answer == 0 && counts[0] == 3 * entries && counts[1] == entries && counts[2] == entries;
}

/* That the inputs are what they should be: refused, not accepted and accepted, with their growths; nine blocks; a survey that ends with Open
 * 64; two plans that are written; a form of six blocks, and one that 17 refuses; a text that is written; long walks and logs. */
static int inputs_right(void)
{
    for (int number = 0; number < INPUTS; number++) {
        make_input(number);
        int walker = number / LETTERS, letter = number % LETTERS;
        uint32_t verdict = walker == NONE || letter <= HIGH ? 2 : walker != PASSING;
        if (!judge_right(verdict, walker, letter) || (letter >= LARGE_LEFT && input.letter_length != LETTER))
            return 0;
        call_survey();
        if (walker == LARGEST && (answer != 1 || told[0] != 64))
            return 0;
        call_witness();
        if (walker != NONE && (answer != 0 || told[0] != LETTER))
            return 0;
        call_canonical();
        if (walker != NONE && (answer != (walker == SPREAD) || told[0] != (walker == SPREAD ? 17 : WALKER)))
            return 0;
        call_markup();
        if (answer != 0 || told[0] != BLOCK)
            return 0;
        call_watch();
        if (!watch_right(letter))
            return 0;
        call_compare();
        if (!compare_right(letter))
            return 0;
    }
    return 1;
}

int main(void)
{
    int status = 0;
    stack = malloc(STACK);
    if (stack == NULL || !inputs_right()) {
        fputs("FAILED: the inputs are not what they should be\n", stderr);
        return 1;
    }
    for (size_t i = 0; i < sizeof functions / sizeof functions[0]; i++) {
        size_t most = most_of(functions[i].call);
        printf("%-18s%8zu bytes of stack, at most %zu\n", functions[i].name, most, functions[i].limit);
        if (most > functions[i].limit) {
            fprintf(stderr, "FAILED: %s takes more stack than engine.h says\n", functions[i].name);
            status = 1;
        }
    }
    return fflush(stdout) == 0 ? status : 1;
}
