/* The example of dfc.h, whole: example FILE SOURCE STRING places a call from the line SOURCE under the plan of FILE, says where it goes first and in
 * which record it is, has it accepted, and says what the caller is handed. */
#include "../include/dfc.h"
#include <stdio.h>
#include <stdlib.h>
#include <string.h>

int main(int argc, char **argv) {
    static uint8_t plan[8192];
    static const char *const box[] = {"feature", "line", "trunk", "resource", "error"};
    static const char *const signal[] = {"", "setup", "upack", "unknown", "avail", "unavail", "none", "dtmf", "special", "teardown", "downack",
                                          "open", "oack", "onack", "ready", "close", "closeack"};
    uint8_t sent[DFC_SETUP], got[DFC_SETUP], source[32], target[32], row[8 * DFC_CALL];
    FILE *f = argc == 4 ? fopen(argv[1], "rb") : NULL;
    if (f == NULL) return fprintf(stderr, "usage: example FILE SOURCE STRING\n"), 2;
    size_t size = fread(plan, 1, sizeof plan, f);
    fclose(f);
    dfc_answer a = dfc_new(plan, size, DFC_LINE, 0, (uint32_t)strtoul(argv[2], NULL, 10), (const uint8_t *)argv[3], strlen(argv[3]), 0, sent);
    if (a.number != 0) return printf("refused %llu\n", (unsigned long long)a.number), 0;
    dfc_routed r = dfc_route(plan, size, sent, DFC_SETUP, source, 32, target, 32, got);
    if (r.number != 0) return printf("refused %llu\n", (unsigned long long)r.number), 0;
    printf("%s %llu %llu %llu; ", box[r.kind], (unsigned long long)r.box_number, (unsigned long long)r.address, (unsigned long long)r.value);
    dfc_clear(row, sizeof row);
    dfc_placed c = dfc_place(plan, size, sent, DFC_SETUP, row, sizeof row, source, 32, target, 32, got);
    if (c.number != 0) return printf("refused %llu\n", (unsigned long long)c.number), 0;
    size_t call = (size_t)c.record_number;
    uint16_t use = (uint16_t)c.use_number;
    dfc_command(row, sizeof row, call, use, DFC_ACCEPT, 0, 0, 0, 0);
    dfc_commanded d = dfc_command(row, sizeof row, call, use, DFC_DELIVER, DFC_CALLER, 0, 0, 0);
    printf("call %zu use %u: %s\n", call, use, d.delivered ? signal[d.signal] : "nothing");
    return 0;
}
