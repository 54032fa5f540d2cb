/* Hoidrul checks case files: one state table, one rule of Fixed Point Logic with Chop and a list of start states.
 *
 * Arguments. Every function takes any bytes and any numbers. `file` points to `len` bytes and `kinds` to `count`, which
 * are only read. Lent areas, `work` and `out`, must not overlap these or each other. A pointer may be null where its
 * length is 0.
 *
 * Replies. A refusal has bit 63 set, its number in bits 32 to 62 and its place in bits 0 to 31; an answer has bit 63
 * clear. Places count from 0: the step in refusal 3, the node in 5 and 6, and else 0. Only opening refuses by 0, without
 * bit 63. A refusal leaves lent areas unchanged. The inline functions below take replies apart, and say 0 of whatever a
 * refusal has not, so that a check that was forgotten lets no drive pass.
 *
 * Threads. Nothing is kept from call to call and there is no global state: threads may call at once, each with areas
 * of its own. They may share a file that nobody writes.
 *
 * Stack. Every call fits in a thread with HOIDRUL_STACK bytes of stack. Threads of 49 KiB were enough in tests, and
 * threads of 48 KiB were not: below its caller's frame hoidrul_regular took 44,984 bytes, hoidrul_judge_kinds, which
 * copies the file, 20,072, hoidrul_judge 13,368 and the other functions at most 5,944. Without hoidrul_regular 24 KiB
 * were enough, and 23 KiB were not. These figures are of an archive that an older kit built, rattle-kit-5b-plain.
 *
 * Time. Judging can take hours: a binder takes up to n * 2^n rounds on n states, of a regular rule n, and nested binders
 * of alternating kinds multiply theirs. Only ending its thread or process stops a call. The other functions end within
 * about a millisecond.
 *
 * Cancelling. No call has a cancellation point, so pthread_cancel ends a call only where the thread has set
 * PTHREAD_CANCEL_ASYNCHRONOUS, best just around the call; else it takes effect after it. A call holds no lock and
 * allocates nothing, so nothing has to be released; the area lent to it may hold anything then.
 */
#ifndef HOIDRUL_H
#define HOIDRUL_H

#include <stddef.h>
#include <stdint.h>

#ifdef __cplusplus
extern "C" {
#endif

/* The version of this header; take the archive of the same. */
#define HOIDRUL_VERSION "0.1.0"
#define HOIDRUL_VERSION_MAJOR 0
#define HOIDRUL_VERSION_MINOR 1
#define HOIDRUL_VERSION_PATCH 0

/* The longest case, in bytes, with its padding. An `out` of this length has room for every result, which is packed and
 * has at most 6,385 bytes. */
#define HOIDRUL_LONGEST 6394

/* Of hoidrul_regular: the longest file, in bytes, the most states, the bytes of the set that it writes and the bytes of
 * work area for each node. HOIDRUL_MOST_NODES times the last is enough for every rule. */
#define HOIDRUL_REGULAR_LONGEST 65535
#define HOIDRUL_REGULAR_MOST_STATES 256
#define HOIDRUL_REGULAR_SET_BYTES 32
#define HOIDRUL_REGULAR_NODE_BYTES 64

/* Enough stack for a thread that calls, in bytes. */
#define HOIDRUL_STACK 131072

/* How many there can be: of padding, bytes between two sections. There are 15 kinds of nodes, and a table of kinds has as
 * many bytes. Laws have the numbers 1 to 9, all others count from 0. */
#define HOIDRUL_MOST_STATES 16
#define HOIDRUL_MOST_NODES 64
#define HOIDRUL_MOST_ACTIONS 8
#define HOIDRUL_MOST_PROPOSITIONS 8
#define HOIDRUL_MOST_VARIABLES 16
#define HOIDRUL_KINDS 15
#define HOIDRUL_MOST_LAWS 9
#define HOIDRUL_MOST_PADDING 3

/* A case is a head of 16 bytes and four sections. For each section the head has its offset and its length, two bytes
 * each, the low one first. The first section begins behind the head, any other where the one before ends or up to
 * three bytes later; the bytes between, the padding, are 0. The file ends where the last section ends. A padded file gets
 * the replies of the packed one, which has the same sections without padding, but for the offsets that opening tells.
 *
 * The sections: a label byte a state; steps of three bytes (from, action, to); nodes of three bytes
 * (kind, A, B) and the root's number; start states of one byte, strictly rising, perhaps none. Kinds: 0 tt, 1 ff,
 * 2 proposition A, 3 its complement, 4 variable A, 5 tau, 6 some step by action A leads into the set, 7 all such steps
 * do, 8 A or B, 9 A and B, 10 A;B, 11 mu A.B, 12 nu A.B, 13 some step whose action is in the group A leads into the
 * set, 14 all such steps do. Bit i of a group is action i, and every byte is a group; of the empty one 13 yields no
 * state and 14 every state. An operand that is not used is 0. */
#define HOIDRUL_LABELS 0
#define HOIDRUL_STEPS 1
#define HOIDRUL_RULE 2
#define HOIDRUL_STARTS 3

/* The refusals: name, number and words. A call gets the first that applies, in the order in which its function lists them.
 * Later versions may have more: let a switch have a default. */
#define HOIDRUL_REASONS(ROW) \
    ROW(HOIDRUL_REASON_PAIRS, 1, "under 16 bytes or too long, or the pairs do not lay four sections in a row, at most three zero bytes apart") \
    ROW(HOIDRUL_REASON_LABELS, 2, "no label, or too many") \
    ROW(HOIDRUL_REASON_STEPS, 3, "section 1 ends inside a step, or a step names no state or action of the case or does not come after the one before") \
    ROW(HOIDRUL_REASON_RULE, 4, "the rule is not 1 to 64 whole nodes and then the number of one of them, or the start states do not rise or are not all in the table") \
    ROW(HOIDRUL_REASON_NODE, 5, "a node's kind or bytes are out of range, or it names a node that is not below it") \
    ROW(HOIDRUL_REASON_BINDER, 6, "a variable is bound a second time") \
    ROW(HOIDRUL_REASON_FREE, 7, "a variable is free in the root") \
    ROW(HOIDRUL_REASON_BEYOND, 8, "the section, set or state asked for is not in the case") \
    ROW(HOIDRUL_REASON_WORK, 9, "the work area is too small") \
    ROW(HOIDRUL_REASON_UNLIKE, 10, "the two states are one state, or are not alike") \
    ROW(HOIDRUL_REASON_SHAPE, 11, "there is no law or node of that number, or the law's shape is not there") \
    ROW(HOIDRUL_REASON_TOO_MANY_NODES, 12, "the rewritten rule would have more than 64 nodes") \
    ROW(HOIDRUL_REASON_ROOM, 13, "the output area is too small for the result") \
    ROW(HOIDRUL_REASON_FORM, 14, "the rule is not of the form that the entry takes") \
    ROW(HOIDRUL_REASON_TABLE, 15, "the table of kinds does not hold each of 0 to 14 once") \
    /* end of the table */

#define HOIDRUL_ROW(name, number, words) name = number,
enum hoidrul_reason { HOIDRUL_REASONS(HOIDRUL_ROW) };
#undef HOIDRUL_ROW

/* Vetting. Answer: n + m * 2^16 for a case of n states and m nodes.
 * Refusals: 1 to 7, 8 if there is no such section. */
uint64_t hoidrul_vet(const uint8_t *file, size_t len, size_t section);

/* Opening. Answer: offset * 2^32 + length, both in bytes, of the section within `file`, without padding.
 * Where hoidrul_vet refuses it answers 0, which is no section, since no offset is 0. */
uint64_t hoidrul_open(const uint8_t *file, size_t len, size_t section);

/* Judging on a set of states, bit i for state i: what the rule makes of it. On the set of all states, that is the
 * set of the states that hold. `work` points to `words` 16-bit words of any values; hoidrul_words tells how many are
 * enough, and all are zero after an answer. Answer: set + rounds * 2^16. Refusals: 1 to 7, 8 if set >= 2^n, 9. */
uint64_t hoidrul_judge(const uint8_t *file, size_t len, uint16_t set, uint16_t *work, size_t words);

/* Judging by a table of kinds, for a case whose supplier numbers them differently: as hoidrul_judge, where the first
 * byte of a node, i, stands for kind kinds[i]. So it is of every node, reached or not, and of no other byte; one
 * above 14 stands for no kind, which is refusal 5. `kinds` must have HOIDRUL_KINDS bytes, each of 0 to 14 once.
 * hoidrul_vet_kinds tells n and m; set, area and answer are those of hoidrul_judge. Refusals: 15 for any other table,
 * before the file is looked at, then 1 to 7, 8 if set >= 2^n, 9. */
uint64_t hoidrul_judge_kinds(const uint8_t *kinds, size_t count, const uint8_t *file, size_t len, uint16_t set,
                             uint16_t *work, size_t words);

/* The four below write to `out`, an area of `room` bytes. Answer: how many bytes were written, from the first on;
 * those behind stay as they were. Refusal 13 if the area is shorter than the result. */

/* Classes: one byte a state, the lowest state alike to it. States are alike if a bisimulation relates them, which compares
 * only as far as the rule looks: the propositions, and the steps of the actions, in nodes that the root reaches; of a group,
 * those of each action in it. Refusals: 1 to 7, 13. */
uint64_t hoidrul_classes(const uint8_t *file, size_t len, uint8_t *out, size_t room);

/* Merging states s and t, in either order: the packed file of the case in which the lower stands for both, also in the
 * list of start states. The lower keeps its label and its steps, and steps to the higher lead to it, also where the rule
 * does not look; steps of the higher are dropped. Refusals: 1 to 7, 8 if s or t is beyond the case, 10 if they are one
 * state or not alike, 13. */
uint64_t hoidrul_merge(const uint8_t *file, size_t len, size_t s, size_t t, uint8_t *out, size_t room);

/* Rewriting by a law, 1 to 9, at a node: the packed file of the case with that rule. Refusals: 1 to 7, 11 to 13. */
uint64_t hoidrul_rewrite(const uint8_t *file, size_t len, size_t law, size_t node, uint8_t *out, size_t room);

/* Judging a regular rule on the set of all states, of which there may be 256: the states that hold, as a set of 32 bytes,
 * state 0 the lowest bit of the first; bits past the states are 0. A rule is regular if its root reaches no tau, if every
 * chop that it reaches has a node of kind 6, 7, 13 or 14 on its left, and if it reaches such nodes only there. `work`
 * points to `bytes` bytes of any values; 64 for each of the m nodes are enough, and all are zero after an answer, which
 * is 32. Refusals: 1 to 7, where a file may have 65,535 bytes and 256 labels, 14 if the rule is not regular, 9, 13. */
uint64_t hoidrul_regular(const uint8_t *file, size_t len, uint8_t *work, size_t bytes, uint8_t *out, size_t room);

/* Of every reply but opening's: is it a refusal? If so, its number, of enum hoidrul_reason, and its place; of an answer both
 * are 0. */
static inline int hoidrul_refused(uint64_t reply) { return (reply >> 63) != 0; }
static inline uint32_t hoidrul_number(uint64_t reply)
{
    return hoidrul_refused(reply) ? (uint32_t)((reply >> 32) & 0x7fffffff) : 0;
}
static inline uint32_t hoidrul_place(uint64_t reply) { return hoidrul_refused(reply) ? (uint32_t)(reply & 0xffffffff) : 0; }

/* The words for a refusal's number; the last ones for a number that HOIDRUL_REASONS does not have. */
static inline const char *hoidrul_reason_text(uint32_t number)
{
#define HOIDRUL_ROW(name, value, words) \
    case value: \
        return words;
    switch (number) {
        HOIDRUL_REASONS(HOIDRUL_ROW)
    default:
        return "a reason that this version does not have";
    }
#undef HOIDRUL_ROW
}

/* The reply if it is an answer, and 0 if it is a refusal: each function below goes by it. */
static inline uint64_t hoidrul_answer(uint64_t reply) { return hoidrul_refused(reply) ? 0 : reply; }

/* Of vetting's answer: n and m. */
static inline size_t hoidrul_states(uint64_t reply) { return (size_t)(hoidrul_answer(reply) & 0xffff); }
static inline size_t hoidrul_nodes(uint64_t reply) { return (size_t)(hoidrul_answer(reply) >> 16); }

/* Of opening's answer: the section's offset within the file, and its length. */
static inline size_t hoidrul_offset(uint64_t reply) { return (size_t)(hoidrul_answer(reply) >> 32); }
static inline size_t hoidrul_length(uint64_t reply) { return (size_t)(hoidrul_answer(reply) & 0xffffffff); }

/* Where the pairs of a file say that a section stands, as opening's answer. Only for a file that a call has accepted,
 * whose pairs are right. */
static inline uint64_t hoidrul_pair(const uint8_t *file, size_t section)
{
    const uint8_t *pair = file + 4 * section;
    uint64_t offset = pair[0] + ((uint64_t)pair[1] << 8), length = pair[2] + ((uint64_t)pair[3] << 8);
    return (offset << 32) + length;
}

/* Of judging's answer, by either function: the set, the rounds, and whether a state is in the set. */
static inline uint16_t hoidrul_set(uint64_t reply) { return (uint16_t)(hoidrul_answer(reply) & 0xffff); }
static inline uint64_t hoidrul_rounds(uint64_t reply) { return hoidrul_answer(reply) >> 16; }
static inline int hoidrul_holds(uint64_t reply, size_t state)
{
    return state < HOIDRUL_MOST_STATES && ((hoidrul_answer(reply) >> state) & 1) != 0;
}

/* Of the answer of a function that writes to `out`: the bytes written. */
static inline size_t hoidrul_written(uint64_t reply) { return (size_t)hoidrul_answer(reply); }

/* Of opening's reply for section HOIDRUL_STARTS of the file and judging's on the set of all states: whether every start
 * state holds, which is so if there is none. If either call was refused, it is not so. */
static inline int hoidrul_starts_hold(const uint8_t *file, uint64_t opened, uint64_t judged)
{
    if (hoidrul_offset(opened) == 0 || hoidrul_refused(judged))
        return 0;
    for (size_t i = 0; i < hoidrul_length(opened); i++)
        if (!hoidrul_holds(judged, file[hoidrul_offset(opened) + i]))
            return 0;
    return 1;
}

/* The same of the reply of hoidrul_judge_kinds on the set of all states, for a file with the kind numbers of its
 * supplier, which opening takes for ours. If the call was refused, it is not so. */
static inline int hoidrul_starts_hold_kinds(const uint8_t *file, uint64_t judged)
{
    return !hoidrul_refused(judged) && hoidrul_starts_hold(file, hoidrul_pair(file, HOIDRUL_STARTS), judged);
}

/* Of the reply of hoidrul_regular and the set that it wrote: whether a state holds, and whether every start state of the
 * file does, which is so if there is none. If the call was refused, neither is so. */
static inline int hoidrul_regular_holds(uint64_t reply, const uint8_t *out, size_t state)
{
    return hoidrul_answer(reply) && state < HOIDRUL_REGULAR_MOST_STATES && ((out[state / 8] >> (state % 8)) & 1) != 0;
}
static inline int hoidrul_regular_starts_hold(const uint8_t *file, uint64_t reply, const uint8_t *out)
{
    if (!hoidrul_answer(reply))
        return 0;
    uint64_t starts = hoidrul_pair(file, HOIDRUL_STARTS);
    for (size_t i = 0; i < hoidrul_length(starts); i++)
        if (!hoidrul_regular_holds(reply, out, file[hoidrul_offset(starts) + i]))
            return 0;
    return 1;
}

/* For judging a case of n states and m nodes: the set of all states, and words that are enough. More than a case can have
 * counts as the most; of 0 and 0, which vetting's refusal has, both are 0. */
static inline uint16_t hoidrul_all_states(size_t n)
{
    return (uint16_t)(((uint32_t)1 << (n < HOIDRUL_MOST_STATES ? n : HOIDRUL_MOST_STATES)) - 1);
}
static inline size_t hoidrul_words(size_t n, size_t m)
{
    size_t nodes = m < HOIDRUL_MOST_NODES ? m : HOIDRUL_MOST_NODES;
    return (2 * nodes) << (n < HOIDRUL_MOST_STATES ? n : HOIDRUL_MOST_STATES);
}

/* Vetting by a table of kinds. Answer: n + m * 2^16, as of hoidrul_vet. Refusals: 15, 1 to 7. */
static inline uint64_t hoidrul_vet_kinds(const uint8_t *kinds, size_t count, const uint8_t *file, size_t len)
{
    /* The empty set is in every case, and no area is enough for any: a case is refused for that alone. */
    uint64_t reply = hoidrul_judge_kinds(kinds, count, file, len, 0, NULL, 0);
    if (hoidrul_number(reply) != HOIDRUL_REASON_WORK)
        return reply;
    uint64_t nodes = hoidrul_length(hoidrul_pair(file, HOIDRUL_RULE)) / 3;
    return hoidrul_length(hoidrul_pair(file, HOIDRUL_LABELS)) + (nodes << 16);
}

#ifdef __cplusplus
}
#endif

#endif
