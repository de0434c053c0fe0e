/* Copies of a shard do not commit a value: three controllers, of which one may fail, and any 2 distinct shards rebuild the value. */
#include "callboard.h"
#include <stdio.h>

int main(void) {
    uint64_t faults[3];
    callboard_profile profile = callboard_parse_profile(3, NULL, 0).profile;
    callboard_answer sets = callboard_fault_list(3, 1, profile, faults, 3);
    callboard_tally tally = callboard_tally_open(3, 2, 2, 3, 1, 0, 42).tally;

    uint64_t sources[] = {0, 1, 2, 1};
    callboard_row rows[] = {{{1 << 0}}, {{1 << 0}}, {{1 << 1}}, {{1 << 2}}}; /* the second is a copy of the first */
    for (int i = 0; i < 4; i++) {
        callboard_reply said = callboard_accept_reply(&tally, sources[i], 1, 0, 42, rows[i], faults, sets.value);
        if (said.refusal != 0) {
            printf("refused %llu\n", (unsigned long long)said.refusal);
        } else {
            puts(said.status == 0 ? "waiting" : "committed");
        }
    }
    return 0;
}
