/* Calls every function of hoidrul.h on one case file. From the repository's root, after rt lib in crates/hoidrul:
 *
 *     cc -I include examples/every_entry.c crates/hoidrul/out/libhoidrul.a
 *     ./a.out cases/two_wheels.case
 *     ./a.out cases/lost_steps_made_up.supplier cases/lost_steps_made_up.kinds
 *
 * Of a case that is too large for the others, hoidrul_regular alone is called; of one that comes with its supplier's table
 * of kinds, hoidrul_judge_kinds alone.
 * A refusal prints its number, its place and its words on standard error, and the exit status is 1. */
#include <hoidrul.h>
#include <inttypes.h>
#include <stdio.h>
#include <stdlib.h>

static const char *path;

/* The reply, if it is an answer. */
static uint64_t answer(uint64_t reply)
{
    if (!hoidrul_refused(reply))
        return reply;
    uint32_t number = hoidrul_number(reply);
    fprintf(stderr, "%s: refused %" PRIu32 " %" PRIu32 ": %s\n", path, number, hoidrul_place(reply), hoidrul_reason_text(number));
    exit(EXIT_FAILURE);
}

static void fail(const char *what)
{
    perror(what);
    exit(EXIT_FAILURE);
}

/* Reads at most so many bytes. One more than a file may have is enough to see that it is too long. */
static size_t read_file(const char *name, uint8_t *bytes, size_t most)
{
    FILE *stream = fopen(name, "rb");
    if (!stream)
        fail(name);
    size_t len = fread(bytes, 1, most, stream);
    if (ferror(stream))
        fail(name);
    fclose(stream);
    return len;
}

static void print_sections(const uint8_t *file, size_t len)
{
    static const char *const names[] = {"labels", "steps", "rule", "start states"};
    for (size_t section = HOIDRUL_LABELS; section <= HOIDRUL_STARTS; section++) {
        uint64_t part = hoidrul_open(file, len, section);
        printf("%s: %zu bytes from byte %zu\n", names[section], hoidrul_length(part), hoidrul_offset(part));
    }
}

static uint16_t *work_area(size_t words)
{
    uint16_t *work = malloc(words * sizeof *work);
    if (!work)
        fail("work area");
    return work;
}

/* Which of n states hold, the rounds, and whether every start state holds. */
static void print_verdict(size_t n, uint64_t verdict, int starts_hold)
{
    for (size_t state = 0; state < n; state++)
        printf("%zu %s\n", state, hoidrul_holds(verdict, state) ? "holds" : "does not hold");
    printf("rounds: %" PRIu64 "\n", hoidrul_rounds(verdict));
    printf("every start state holds: %s\n", starts_hold ? "yes" : "no");
}

/* On the set of all states. */
static void judge(const uint8_t *file, size_t len)
{
    uint64_t counts = answer(hoidrul_vet(file, len, HOIDRUL_RULE));
    size_t n = hoidrul_states(counts), words = hoidrul_words(n, hoidrul_nodes(counts));
    uint16_t *work = work_area(words);
    uint64_t verdict = answer(hoidrul_judge(file, len, hoidrul_all_states(n), work, words));
    free(work);
    uint64_t starts = hoidrul_open(file, len, HOIDRUL_STARTS);
    print_verdict(n, verdict, hoidrul_starts_hold(file, starts, verdict));
}

/* The same with a supplier's kinds, read through its table. */
static void judge_kinds(const uint8_t *kinds, size_t count, const uint8_t *file, size_t len)
{
    uint64_t counts = answer(hoidrul_vet_kinds(kinds, count, file, len));
    size_t n = hoidrul_states(counts), words = hoidrul_words(n, hoidrul_nodes(counts));
    uint16_t *work = work_area(words);
    uint64_t verdict = answer(hoidrul_judge_kinds(kinds, count, file, len, hoidrul_all_states(n), work, words));
    free(work);
    print_verdict(n, verdict, hoidrul_starts_hold_kinds(file, verdict));
}

/* By the function for regular rules: which states hold, and whether every start state does. */
static void judge_regular(const uint8_t *file, size_t len)
{
    uint8_t work[HOIDRUL_MOST_NODES * HOIDRUL_REGULAR_NODE_BYTES], out[HOIDRUL_REGULAR_SET_BYTES];
    uint64_t reply = answer(hoidrul_regular(file, len, work, sizeof work, out, sizeof out));
    printf("the rule is regular\nholding:");
    for (size_t state = 0; state < HOIDRUL_REGULAR_MOST_STATES; state++)
        if (hoidrul_regular_holds(reply, out, state))
            printf(" %zu", state);
    printf("\nevery start state holds: %s\n", hoidrul_regular_starts_hold(file, reply, out) ? "yes" : "no");
}

/* Merges the first state that has a lower one alike to it with that one. */
static void merge_first(const uint8_t *file, size_t len)
{
    uint8_t classes[HOIDRUL_MOST_STATES], out[HOIDRUL_LONGEST];
    size_t n = hoidrul_written(answer(hoidrul_classes(file, len, classes, sizeof classes)));
    printf("classes:");
    for (size_t state = 0; state < n; state++)
        printf(" %d", classes[state]);
    printf("\n");
    for (size_t state = 0; state < n; state++)
        if (classes[state] < state) {
            size_t written = hoidrul_written(answer(hoidrul_merge(file, len, classes[state], state, out, sizeof out)));
            printf("states %d and %zu merged: %zu bytes\n", classes[state], state, written);
            judge(out, written);
            return;
        }
}

/* Rewrites by the first law that fits a node, at the first such node. */
static void rewrite_first(const uint8_t *file, size_t len, size_t nodes)
{
    uint8_t out[HOIDRUL_LONGEST];
    for (size_t law = 1; law <= HOIDRUL_MOST_LAWS; law++)
        for (size_t node = 0; node < nodes; node++) {
            uint64_t reply = hoidrul_rewrite(file, len, law, node, out, sizeof out);
            if (hoidrul_refused(reply)) /* It does not fit, or the rule would get too many nodes. */
                continue;
            printf("law %zu at node %zu: %zu bytes\n", law, node, hoidrul_written(reply));
            judge(out, hoidrul_written(reply));
            return;
        }
}

static void call_all(const uint8_t *file, size_t len)
{
    uint64_t counts = answer(hoidrul_vet(file, len, HOIDRUL_LABELS));
    printf("states: %zu\nnodes: %zu\n", hoidrul_states(counts), hoidrul_nodes(counts));
    print_sections(file, len);
    judge(file, len);
    /* The form is tested before the areas. */
    if (hoidrul_number(hoidrul_regular(file, len, NULL, 0, NULL, 0)) == HOIDRUL_REASON_FORM)
        printf("the rule is not regular\n");
    else
        judge_regular(file, len);
    merge_first(file, len);
    rewrite_first(file, len, hoidrul_nodes(counts));
}

int main(int argc, char **argv)
{
    static uint8_t file[HOIDRUL_REGULAR_LONGEST + 1];
    uint8_t kinds[HOIDRUL_KINDS + 1];
    if (argc != 2 && argc != 3) {
        fprintf(stderr, "usage: every_entry CASE [KINDS]\n");
        return EXIT_FAILURE;
    }
    path = argv[1];
    size_t len = read_file(path, file, sizeof file);
    if (argc == 3)
        judge_kinds(kinds, read_file(argv[2], kinds, sizeof kinds), file, len);
    else if (hoidrul_refused(hoidrul_vet(file, len, HOIDRUL_LABELS)))
        judge_regular(file, len);
    else
        call_all(file, len);
    if (fclose(stdout))
        fail("standard output");
    return EXIT_SUCCESS;
}
