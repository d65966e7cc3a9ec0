/* The yardstick for `repliss replay`: replays a schedule of the benchmark's program with rows of bits.
 *
 *     machine SCHEDULE [bare]
 *
 * The program is built in: one add-wins set of integers, procedures `add` and `remove` of one operation in a transaction and
 * `many` of 127 adds in one, and the invariants that 0 to 3 are in the set and 1000 to 1003 aren't, or none with the word `bare`. It prints the line
 * that `repliss replay` prints, but of a refused step not why. */
#include <inttypes.h>
#include <stdbool.h>
#include <stdio.h>
#include <stdlib.h>
#include <string.h>

enum { MOST = 16384, WORDS = MOST / 64, MOST_BYTES = 4194304, MOST_STEPS = 100000, MANY = 127 };
enum Kind { INVOKE, BEGIN, OP, COMMIT, RETURN, CHECK };
enum Operation { MARKER, ADD, REMOVE };
enum Stage { BEFORE, OPEN, COMMITTED, RETURNED };
enum Answer { MOVED, REFUSED, TOO_MANY_CALLS, TOO_MANY_INVOCATIONS };

typedef struct { enum Kind kind; uint32_t inv; int64_t value; uint64_t stamp; enum Operation op; uint32_t ops; uint32_t *sees; uint32_t count; } Step;
typedef struct { enum Operation op; int64_t value; uint32_t tx; uint64_t stamp; } Call;
typedef struct { enum Operation op; int64_t value; enum Stage stage; uint32_t left; uint32_t tx; uint64_t view[WORDS]; uint64_t txs[WORDS]; } Invocation;

static char text[MOST_BYTES + 1];
static Step steps[MOST_STEPS];
static uint32_t step_count;
static Call calls[MOST];
static uint64_t pasts[MOST][WORDS]; /* the bit matrix of what is before what */
static Invocation invocations[MOST];
static bool committed[MOST];
static uint32_t call_count, tx_count, invocation_count;
static bool has_invariants;

static bool has(const uint64_t *row, uint32_t n) { return row[n / 64] >> (n % 64) & 1; }
static void put(uint64_t *row, uint32_t n) { row[n / 64] |= (uint64_t)1 << (n % 64); }

static void fault(void) {
    printf("refused: schedule line %" PRIu32 "\n", step_count + 3);
    exit(2);
}

/* ---- the text ---- */

static bool skip(const char **at, const char *word) {
    size_t length = strlen(word);
    if (strncmp(*at, word, length) != 0) return false;
    *at += length;
    return true;
}

static uint64_t number(const char **at) {
    char *end;
    uint64_t n = strtoull(*at, &end, 10);
    if (end == *at) fault();
    *at = end;
    return n;
}

/* The numbers up to the end of the line. */
static void read_sees(Step *step, const char **at) {
    uint32_t room = 0;
    while (skip(at, " ")) {
        if (step->count == room) {
            room = room ? 2 * room : 64;
            step->sees = realloc(step->sees, room * sizeof *step->sees);
            if (!step->sees) fault();
        }
        step->sees[step->count++] = (uint32_t)number(at);
    }
}

static void read_step(Step *step, const char **at) {
    if (skip(at, "invoke add ")) *step = (Step){.kind = INVOKE, .op = ADD, .ops = 1, .value = (int64_t)number(at)};
    else if (skip(at, "invoke remove ")) *step = (Step){.kind = INVOKE, .op = REMOVE, .ops = 1, .value = (int64_t)number(at)};
    else if (skip(at, "invoke many ")) *step = (Step){.kind = INVOKE, .op = ADD, .ops = MANY, .value = (int64_t)number(at)};
    else if (skip(at, "begin ")) {
        *step = (Step){.kind = BEGIN, .inv = (uint32_t)number(at)};
        if (!skip(at, " stamp ")) fault();
        step->stamp = number(at);
        if (!skip(at, " sees")) fault();
        read_sees(step, at);
    } else if (skip(at, "op ")) {
        *step = (Step){.kind = OP, .inv = (uint32_t)number(at)};
        if (!skip(at, " stamp ")) fault();
        step->stamp = number(at);
    } else if (skip(at, "commit ")) *step = (Step){.kind = COMMIT, .inv = (uint32_t)number(at)};
    else if (skip(at, "return ")) *step = (Step){.kind = RETURN, .inv = (uint32_t)number(at)};
    else if (skip(at, "check")) {
        *step = (Step){.kind = CHECK};
        read_sees(step, at);
    } else fault();
    if (!skip(at, "\n")) fault();
}

static void read_text(const char *name) {
    FILE *file = fopen(name, "rb");
    if (!file) exit(3);
    text[fread(text, 1, MOST_BYTES, file)] = '\0';
    const char *at = text;
    if (!skip(&at, "repliss-schedule 1\nuniverse 1\n")) fault();
    while (*at) {
        if (step_count == MOST_STEPS) fault();
        read_step(&steps[step_count], &at);
        step_count++;
    }
}

/* ---- the machine ---- */

/* The calls of these transactions, and the transactions, as rows. False where one isn't committed. */
static bool view_of(const Step *step, uint64_t *view, uint64_t *txs) {
    memset(view, 0, WORDS * sizeof *view);
    memset(txs, 0, WORDS * sizeof *txs);
    for (uint32_t i = 0; i < step->count; i++) {
        uint32_t tx = step->sees[i];
        if (tx >= tx_count || !committed[tx]) return false;
        put(txs, tx);
    }
    for (uint32_t c = 0; c < call_count; c++)
        if (has(txs, calls[c].tx)) put(view, c);
    return true;
}

/* Whether all that is before a call of the view is in it. Pasts are closed, so marked calls need no look. */
static bool is_closed(const uint64_t *view) {
    uint64_t marked[WORDS] = {0};
    uint32_t words = (call_count + 63) / 64;
    for (uint32_t c = call_count; c-- > 0;)
        if (has(view, c) && !has(marked, c))
            for (uint32_t w = 0; w < words; w++) marked[w] |= pasts[c][w];
    for (uint32_t w = 0; w < words; w++)
        if (marked[w] & ~view[w]) return false;
    return true;
}

static bool may_stamp(uint64_t stamp, const uint64_t *past) {
    for (uint32_t c = 0; c < call_count; c++) {
        if (calls[c].stamp == stamp) return false;
        if (has(past, c) && calls[c].stamp > stamp) return false;
    }
    return true;
}

static void add_call(enum Operation op, int64_t value, uint32_t tx, uint64_t stamp, const uint64_t *past) {
    calls[call_count] = (Call){.op = op, .value = value, .tx = tx, .stamp = stamp};
    memcpy(pasts[call_count], past, sizeof pasts[call_count]);
    call_count++;
}

static enum Answer begin(const Step *step) {
    static uint64_t view[WORDS], txs[WORDS];
    Invocation *inv = &invocations[step->inv];
    if (inv->stage != BEFORE) return REFUSED;
    if (!view_of(step, view, txs) || !is_closed(view) || !may_stamp(step->stamp, view)) return REFUSED;
    if (call_count == MOST) return TOO_MANY_CALLS;
    memcpy(inv->view, view, sizeof view);
    memcpy(inv->txs, txs, sizeof txs);
    inv->tx = tx_count;
    inv->stage = OPEN;
    put(inv->view, call_count);
    add_call(MARKER, 0, tx_count, step->stamp, view);
    committed[tx_count++] = false;
    return MOVED;
}

static enum Answer operate(const Step *step) {
    Invocation *inv = &invocations[step->inv];
    if (inv->stage != OPEN || inv->left == 0 || !may_stamp(step->stamp, inv->view)) return REFUSED;
    if (call_count == MOST) return TOO_MANY_CALLS;
    add_call(inv->op, inv->value, inv->tx, step->stamp, inv->view);
    put(inv->view, call_count - 1);
    inv->left--;
    return MOVED;
}

/* Whether an add of the value in the view has no remove of it after it there. */
static bool contains(const uint64_t *view, int64_t value) {
    for (uint32_t c = 0; c < call_count; c++) {
        if (!has(view, c) || calls[c].op != ADD || calls[c].value != value) continue;
        bool stands = true;
        for (uint32_t d = c + 1; stands && d < call_count; d++)
            stands = !(has(view, d) && calls[d].op == REMOVE && calls[d].value == value && has(pasts[d], c));
        if (stands) return true;
    }
    return false;
}

/* The first invariant that is false, or -1; -2 where the step is refused. */
static int check(const Step *step) {
    static uint64_t view[WORDS], txs[WORDS];
    if (!view_of(step, view, txs) || !is_closed(view)) return -2;
    for (int n = 0; has_invariants && n < 8; n++)
        if (contains(view, n < 4 ? n : 996 + n) != (n < 4)) return n;
    return -1;
}

static enum Answer move(const Step *step) {
    if (step->kind == INVOKE) {
        if (invocation_count == MOST) return TOO_MANY_INVOCATIONS;
        invocations[invocation_count++] = (Invocation){.op = step->op, .value = step->value, .left = step->ops, .stage = BEFORE};
        return MOVED;
    }
    if (step->inv >= invocation_count) return REFUSED;
    Invocation *inv = &invocations[step->inv];
    if (step->kind == BEGIN) return begin(step);
    if (step->kind == OP) return operate(step);
    if (step->kind == COMMIT && inv->stage == OPEN && inv->left == 0) {
        committed[inv->tx] = true;
        inv->stage = COMMITTED;
        return MOVED;
    }
    if (step->kind == RETURN && inv->stage == COMMITTED) {
        inv->stage = RETURNED;
        return MOVED;
    }
    return REFUSED;
}

/* Replays, prints how it ends, and gives the status. */
static int replay(void) {
    for (uint32_t n = 0; n < step_count; n++) {
        uint32_t step = n + 1;
        if (steps[n].kind == CHECK) {
            int found = check(&steps[n]);
            if (found == -2) return printf("refused: step %" PRIu32 "\n", step), 2;
            if (found >= 0) return printf("violated: step %" PRIu32 " invariant %s%d\n", step, found < 4 ? "in" : "out", found), 1;
            continue;
        }
        enum Answer answer = move(&steps[n]);
        if (answer == REFUSED) return printf("refused: step %" PRIu32 "\n", step), 2;
        if (answer == TOO_MANY_CALLS) return printf("refused: limit calls 16384 at step %" PRIu32 "\n", step), 2;
        if (answer == TOO_MANY_INVOCATIONS) return printf("refused: limit invocations 16384 at step %" PRIu32 "\n", step), 2;
    }
    printf("clean: %" PRIu32 " step%s\n", step_count, step_count == 1 ? "" : "s");
    return 0;
}

int main(int count, char **words) {
    if (count < 2) return 2;
    has_invariants = count == 2;
    read_text(words[1]);
    return replay();
}
