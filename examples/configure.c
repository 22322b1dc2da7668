/* A small configuration tool: it holds the tables of a gateway, asks Sievemarl where data can flow and whether every separation
 * holds, and refuses to go on where one is broken. */
#include "sievemarl.h"

#include <stdio.h>

enum { SUBJECTS = 3, OBJECTS = 3, ROLES = 4, ENTITIES = SUBJECTS + OBJECTS };

static const char *const name[ENTITIES] = {
    "workshop tester", "logger", "calibration tool", "scratch block", "calibration memory", "event memory",
};

static uint8_t assignment[SIEVEMARL_ASSIGNMENT_LEAST];
static uint8_t permission[SIEVEMARL_PERMISSION_LEAST];
static uint8_t separations[SIEVEMARL_SEPARATIONS_LEAST] = {0, 4, 4, 2};
static uint8_t flow[SIEVEMARL_FLOW_LEAST];
static uint8_t chain[SIEVEMARL_CHAIN_LEAST];

static void assign(size_t subject, size_t role) {
    assignment[subject * ROLES + role] = 1;
}

static void permit(size_t role, size_t object, uint8_t mode) {
    permission[role * OBJECTS + object] = mode;
}

static void print_flows(void) {
    for (size_t x = 0; x < ENTITIES; x++) {
        printf("%s flows to:", name[x]);
        for (size_t y = 0; y < ENTITIES; y++) {
            if (y != x && flow[x * ENTITIES + y] == 1) {
                printf(" [%s]", name[y]);
            }
        }
        printf("\n");
    }
}

int main(void) {
    assign(0, 0);
    assign(1, 1);
    assign(2, 2);
    permit(0, 0, 2);
    permit(1, 0, 1);
    permit(1, 1, 2);
    permit(2, 2, 1);
    permit(3, 1, 1);
    permit(3, 2, 2);

    uint32_t answer = sievemarl_fill_flow(SUBJECTS, OBJECTS, ROLES, assignment, sizeof assignment, permission, sizeof permission,
        flow, sizeof flow);
    if (answer != SIEVEMARL_DONE) {
        printf("the tables are refused: %u\n", (unsigned)answer);
        return 1;
    }
    print_flows();

    uint32_t verdict = sievemarl_judge(SUBJECTS, OBJECTS, ROLES, assignment, sizeof assignment, permission, sizeof permission,
        2, separations, sizeof separations, chain, sizeof chain);
    switch (SIEVEMARL_ANSWER(verdict)) {
    case SIEVEMARL_DONE:
        printf("every separation holds\n");
        return 0;
    case SIEVEMARL_BROKEN:
        printf("separation %u is broken:", (unsigned)SIEVEMARL_POSITION(verdict));
        for (uint32_t i = 0; i < SIEVEMARL_CHAIN_COUNT(verdict); i++) {
            printf(" [%s]", name[chain[i]]);
        }
        printf("\n");
        return 1;
    default:
        printf("the separations are refused: %u\n", (unsigned)SIEVEMARL_ANSWER(verdict));
        return 1;
    }
}
