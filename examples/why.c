// Asks the proved library why a port is shut, in C: two bridges and a link, step by step. README.md says how to run it.
#include <inttypes.h>
#include <stddef.h>
#include <stdint.h>
#include <stdio.h>
#include <stdlib.h>

// A slice passes as a pointer and then a length. Each call replies 0, or the number of its refusal.
uint8_t bench_net_fresh(uint32_t *bench, size_t, const uint32_t *costs, size_t, uint32_t *sent, size_t, uint32_t *held, size_t);
uint8_t bench_net_update(uint32_t *bench, size_t, const uint32_t *costs, size_t, uint32_t *sent, size_t, uint32_t *held, size_t,
                         size_t bridge, size_t view);
uint8_t bench_net_cut(uint32_t *bench, size_t, size_t bridge, size_t link);
uint8_t bench_net_restore(uint32_t *bench, size_t, size_t bridge, size_t link);
uint8_t bench_net_send(uint32_t *bench, size_t, uint32_t *messages, size_t, size_t bridge, size_t link);
uint8_t bench_net_deliver(uint32_t *bench, size_t, const uint32_t *costs, size_t, uint32_t *sent, size_t, uint32_t *held, size_t,
                          uint32_t *messages, size_t, size_t place, uint32_t *out, size_t);
uint8_t bench_net_verdict(const uint32_t *bench, size_t, const uint32_t *costs, size_t, const uint32_t *sent, size_t,
                          const uint32_t *held, size_t, size_t bridge, size_t dest, uint32_t *out, size_t);

static uint32_t bench[420], costs[1024], sent[1024], held[1024], messages[320];

static const char *const words[] = {
    "forwards, on link",
    "is the destination",
    "no path",
    "chosen link down at this end, link",
    "nothing held over link",
    "held limit too great, link",
    "sent limit not above the distance, link",
};

// The reply of a step that must not be refused.
static void accepted(uint8_t refused) {
    if (refused)
        exit(1);
}

static void ask(size_t bridge, size_t dest) {
    uint32_t out[2];
    uint8_t refused = bench_net_verdict(bench, 420, costs, 1024, sent, 1024, held, 1024, bridge, dest, out, 2);
    printf("%zu to %zu: ", bridge, dest);
    if (refused)
        printf("refused %d\n", refused);
    else if (out[1] == UINT32_MAX)
        printf("%s\n", words[out[0]]);
    else
        printf("%s %" PRIu32 "\n", words[out[0]], out[1]);
}

int main(void) {
    uint32_t answer[3];
    bench[0] = 2, bench[1] = 1, bench[2] = 2; // two bridges, one link, two views
    bench[4] = 0, bench[5] = 1;               // link 0 joins bridges 0 and 1
    costs[0] = 5, costs[32] = 3;              // it costs 5 in view 0 and 3 in view 1
    accepted(bench_net_fresh(bench, 420, costs, 1024, sent, 1024, held, 1024));
    ask(0, 0);
    ask(1, 0);
    accepted(bench_net_send(bench, 420, messages, 320, 0, 0)); // bridge 0 sends its agreement over link 0, and it arrives
    accepted(bench_net_deliver(bench, 420, costs, 1024, sent, 1024, held, 1024, messages, 320, 0, answer, 3));
    ask(1, 0);
    accepted(bench_net_cut(bench, 420, 1, 0)); // bridge 1's connector is pulled, and put in again
    ask(1, 0);
    accepted(bench_net_restore(bench, 420, 1, 0));
    accepted(bench_net_update(bench, 420, costs, 1024, sent, 1024, held, 1024, 1, 1)); // bridge 1, not bridge 0, goes to view 1
    ask(1, 0);
    ask(7, 0);
    return 0;
}
