/* Callboard's shard planner: the C interface of the library `callboard`.
 *
 * Rules
 *
 * - Every number is a uint64_t, so that nothing is cut on the way in. A flag is a number: 0 is false, any other is true.
 * - The first field of every answer is `refusal`: 0, or one of the numbers below. After a refusal every other field is 0, and nothing was
 *   written into lent memory or a tally. Checks run in the order that each function lists; the first case that holds is the answer.
 * - A list is a pointer and its length in elements; the pointer of a list of length 0 is not read. Memory that a function writes must not
 *   overlap anything else that it is lent. Where a length must be n, or 4 n for n rows, and is not, that is refusal 17.
 * - n is the number of replicas. A mask of replicas has bit s for replica s.
 * - A row is a set of shards in four words: shard i is bit i % 64 of word i / 64. A table of rows has the four words of replica 0, then
 *   those of replica 1, and so on: 4 n words for n rows, where row s starts at word 4 s. A single row is passed by value.
 * - `ceiling` says what `width` is: 0 for the exact width of a layout, otherwise the most that it may be.
 * - There is no state and no allocation: calls may run side by side if they share no tally and no memory that one of them writes.
 * - The stack that a call takes, as bindings/rust/examples/stack.rs measures it: callboard_pick_assignment 39 KiB, but 16 up to 64 data
 *   shards; callboard_fault_list at most 11; callboard_accept_reply 7; callboard_parse_profile 5; every other function at most 4. A refused
 *   call may take as much.
 *
 * Numbers that refuse
 *
 * From the input
 *    1  population: not 1 to 16
 *    2  fault tolerance: not 0 to n - 1
 *    3  own, peer or source number not below n
 *    4  data shards not 1 to 255, or a width, exact or ceiling, not d to 255
 *    5  quorum or majority: not 1 to n
 *    6  text longer than 4,096 bytes (a layout's: 16,384), or with a byte above 127
 *    7  malformed numeral, or a whole number above 255
 *    8  well-formed decimal with more than 15 digits, more than 4 exponent digits, or a power of ten outside -22 to 22
 *    9  replica or shard number in a text or profile outside its range
 *   10  unknown mechanism in a profile's text
 *   11  probabilities: count other than n, one outside 0 to 1, or a threshold not above 0 and at most 1
 *   12  a 65th failure domain
 *   13  layout text that is neither a fitting number nor segments with colons
 *   14  total shards no multiple of n (layout text), or d no multiple of the majority (balanced policy)
 *   15  size above 2^30 bytes, or bytes in flight to a peer above 2^40
 *   16  a row or reply with a shard at or above the width, or an alive, heard or answered mask with a bit at or above n
 *   17  a lent table of the wrong length; a fault list that is empty, or has a set of all n replicas or of one at or above n
 * From the state
 *   21  the profile and the tolerance give a set that contains every replica
 *   22  more maximal sets than words in the lent list
 *   23  a reply whose ballot or value id differs from the tally's
 *   24  a trimmed plan that no longer commits
 */
#ifndef CALLBOARD_H
#define CALLBOARD_H

#include <stddef.h>
#include <stdint.h>

#ifdef __cplusplus
extern "C" {
#endif

/* Limits */

#define CALLBOARD_REPLICAS 16     /* the largest population */
#define CALLBOARD_SHARDS 255      /* the most shards of a layout */
#define CALLBOARD_ROW_WORDS 4     /* the words of a row */
#define CALLBOARD_DOMAINS 64      /* the failure domains of a profile */
#define CALLBOARD_FAULT_SETS 12870 /* the longest fault list */
#define CALLBOARD_PROFILE_TEXT 4096
#define CALLBOARD_LAYOUT_TEXT 16384

/* Rows and answers */

typedef struct {
    uint64_t words[4];
} callboard_row;

typedef struct {
    uint64_t refusal, value;
} callboard_answer;

typedef struct {
    uint64_t refusal;
    double value;
} callboard_float;

typedef struct {
    uint64_t refusal, width, commits; /* commits: 1 or 0 */
} callboard_layout;

typedef struct {
    uint64_t refusal, found, width; /* found: 1 or 0; without a plan, width and time are 0 */
    double time;
} callboard_plan;

typedef struct {
    uint64_t refusal, from_table, count; /* from_table: 1 for the table's rows of `count` shards, 0 for the initial layout */
} callboard_choice;

/* A reliability profile. With prob_count 0 there are no probabilities, and probs and threshold are unread. Domains are masks. */
typedef struct {
    uint64_t domain_count, prob_count, runtime;
    double threshold;
    double probs[16];
    uint64_t domains[64];
} callboard_profile;

typedef struct {
    uint64_t refusal;
    callboard_profile profile;
} callboard_profile_reading;

/* The tally of accept replies for one value. Callers keep it and hand it back; only the functions below change it. */
typedef struct {
    uint64_t population, quorum, data_shards, width, ballot, value_high, value_low, heard, committed;
    uint64_t rows[64]; /* four words a replica */
} callboard_tally;

typedef struct {
    uint64_t refusal;
    callboard_tally tally;
} callboard_tally_opening;

typedef struct {
    uint64_t refusal, status; /* 0 waiting, 1 committed, 2 already committed */
} callboard_reply;

/* Reliability profiles and fault lists */

/* Reads a profile from its text.
 * Refusals: 1; 6; then the first from the left of 7, 8, 9, 10, 11, 12. */
callboard_profile_reading callboard_parse_profile(uint64_t n, const uint8_t *text, size_t text_len);

/* How likely a peer seems to fail, given the share of recent time that it was `down`.
 * Refusals: 1, 3, 9, 11, 12. */
callboard_float callboard_unreliability(uint64_t n, uint64_t peer, callboard_profile p, double down);

/* The maximal sets of replicas whose failure a committed value must survive, as masks in rising order. Answers their count and writes as
 * many words of the list; words past them stay.
 * Refusals: 1, 2, 9, 11, 12, 21, 22. */
callboard_answer callboard_fault_list(uint64_t n, uint64_t f, callboard_profile p, uint64_t *list, size_t room);

/* Coverage */

/* The commit rule: 1 if somebody was heard and the rows heard still have d distinct shards after the failure of any listed set, else 0.
 * Refusals: 1, 4, 16, 17. */
callboard_answer callboard_covers(uint64_t n, uint64_t d, uint64_t w, uint64_t heard, const uint64_t *rows, size_t rows_len,
                                  const uint64_t *faults, size_t faults_len);

/* How many rows the walk of coverage unites under the list's first set. It takes the rows of those heard outside the set in falling number
 * of shards, equal ones by rising replica, and ends once d distinct shards are together: the length of the shortest beginning of that order
 * whose rows have d, or of the whole order if none does. An empty row counts when it is passed; with nobody left it is 0.
 * Refusals: 1, 4, 16, 17. */
callboard_answer callboard_rows_united(uint64_t n, uint64_t d, uint64_t w, uint64_t heard, const uint64_t *rows, size_t rows_len,
                                       const uint64_t *faults, size_t faults_len);

/* The discard rule: 1 if some listed set contains every replica that was not heard, else 0.
 * Refusals: 1, 16, 17. */
callboard_answer callboard_survived_by(uint64_t n, uint64_t heard, const uint64_t *faults, size_t faults_len);

/* Layouts and plans */

/* Deals shards to the replicas by their loads. Answers the width and writes n rows.
 * Refusals: 1, 4, 17. */
callboard_answer callboard_layout_rows(uint64_t n, uint64_t d, uint64_t ceiling, uint64_t width, const uint64_t *loads, size_t loads_len,
                                       uint64_t *rows, size_t rows_len);

/* The same for the replicas of the mask `answered`, the others having load 0, and whether their replies commit. Writes n rows either way.
 * Refusals: 1, 4, 5, 16, 17. */
callboard_layout callboard_layout_commits(uint64_t n, uint64_t quorum, uint64_t d, uint64_t ceiling, uint64_t width, uint64_t answered,
                                          const uint64_t *loads, size_t loads_len, const uint64_t *faults, size_t faults_len,
                                          uint64_t *rows, size_t rows_len);

/* The plan that commits the soonest for a value of `size` bytes. `models` has 4 floats a replica (slope, delay, jitter, unreliability),
 * `inflight` the bytes in flight to each, `heard` a bit for each that is not silent; our own record is unread. Answers the time and the
 * width and writes n rows if there is a plan; without one it writes nothing.
 * Refusals: 1, 3, 4, 5, 15, 16, 17, 24. */
callboard_plan callboard_pick_assignment(uint64_t n, uint64_t own, uint64_t quorum, uint64_t d, uint64_t ceiling, uint64_t width,
                                         uint64_t size, double penalty, uint64_t heard, const double *models, size_t models_len,
                                         const uint64_t *inflight, size_t inflight_len, const uint64_t *faults, size_t faults_len,
                                         uint64_t *rows, size_t rows_len);

/* Full copies for every replica, where there is no plan. Answers the width (d under a ceiling) and writes n rows.
 * Refusals: 1, 4, 17. */
callboard_answer callboard_full_copies(uint64_t n, uint64_t d, uint64_t ceiling, uint64_t width, uint64_t *rows, size_t rows_len);

/* The balanced policy */

/* The fewest shards a replica with which the replicas of the mask `alive` suffice.
 * Refusals: 1, 2, 4, 5, 14, 16. */
callboard_answer callboard_min_shards_per_replica(uint64_t n, uint64_t f, uint64_t d, uint64_t majority, uint64_t alive);

/* Chooses the initial layout, or a count of shards a replica. `models` has 3 floats a replica (slope, delay, jitter); our own record is
 * unread. `init` has n rows. `table` is empty, or has n rows for each whole count from d / majority to d, rising.
 * Refusals: 1, 2, 3, 4, 5, 14, 15, 16, 17. */
callboard_choice callboard_pick_assignment_policy(uint64_t n, uint64_t f, uint64_t own, uint64_t d, uint64_t w, uint64_t majority,
                                                  uint64_t size, uint64_t adaptive, uint64_t balanced, const double *models,
                                                  size_t models_len, const uint64_t *inflight, size_t inflight_len, uint64_t alive,
                                                  const uint64_t *init, size_t init_len, const uint64_t *table, size_t table_len);

/* The same, and writes the n rows of that choice.
 * Refusals: the same; 17 also if `rows` does not have 4 n words. */
callboard_choice callboard_policy_rows(uint64_t n, uint64_t f, uint64_t own, uint64_t d, uint64_t w, uint64_t majority, uint64_t size,
                                       uint64_t adaptive, uint64_t balanced, const double *models, size_t models_len,
                                       const uint64_t *inflight, size_t inflight_len, uint64_t alive, const uint64_t *init,
                                       size_t init_len, const uint64_t *table, size_t table_len, uint64_t *rows, size_t rows_len);

/* Reads a layout of `total` shards from its text and writes n rows. The value is 0.
 * Refusals: 1, 4; 6, then the first from the left of 7, 9, 13; 14, 17. */
callboard_answer callboard_parse_init_assignment(uint64_t n, uint64_t d, uint64_t total, const uint8_t *text, size_t text_len,
                                                 uint64_t *rows, size_t rows_len);

/* Gossip */

/* Which peers to ask for shards that are missing, given those `available`. Answers the mask of those asked, and writes for each of the n
 * replicas the row of the shards that it is to leave out, empty for one that is not asked.
 * Refusals: 1, 3, 4, 16, 17. */
callboard_answer callboard_gossip_targets_excl(uint64_t n, uint64_t own, uint64_t source, uint64_t d, uint64_t w, callboard_row available,
                                               const uint64_t *rows, size_t rows_len, uint64_t alive, uint64_t *exclusions,
                                               size_t exclusions_len);

/* The tally of accept replies */

/* Opens a tally. The value id is given by its high and its low half.
 * Refusals: 1, 4, 5. */
callboard_tally_opening callboard_tally_open(uint64_t n, uint64_t quorum, uint64_t d, uint64_t w, uint64_t ballot, uint64_t high,
                                             uint64_t low);

/* Counts a reply and answers whether the value is committed. `t` must not be NULL. A refused reply writes nothing to it; one after
 * commitment leaves every word of it as it was.
 * Refusals: 1, 3, 4, 5, 16, 17, 23. */
callboard_reply callboard_accept_reply(callboard_tally *t, uint64_t source, uint64_t ballot, uint64_t high, uint64_t low, callboard_row row,
                                       const uint64_t *faults, size_t faults_len);

#ifdef __cplusplus
}
#endif

#endif
