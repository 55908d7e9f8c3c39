/* Calls the gateway's three checks on a table of codes, and ends with status 1 if any answer is not
 * the one that the table has. The codes and their check characters are published ones, but for
 * those of office 9Q, which are worked by hand in docs/CODES.md. */
#include <stdio.h>
#include <string.h>

#include "eic_gateway.h"

struct row {
    uint32_t (*check)(const uint8_t *bytes, size_t len);
    const char *text;
    uint32_t answer;
};

static const struct row rows[] = {
    {eic_soundness, "11XRWENET12345-2", 0},
    {eic_soundness, "10YDK-BALANCE-WM", 0},
    {eic_soundness, "10X1001A1001A248", 0},
    {eic_soundness, "38Z310005001000N", 0},
    {eic_soundness, "9QX0000000000011", 0},
    {eic_soundness, "9QX0000000000003", 0},
    {eic_soundness, "9QXALPHB-------9", 8},
    {eic_soundness, "9QXLAPHA-------9", 8},
    {eic_soundness, "20Z12345678901E2", 8},
    {eic_soundness, "38W310005001000I", 8},
    {eic_soundness, "11XRWENET12345-*", 6},
    {eic_soundness, "11XRWENET12345-", 6},
    {eic_soundness, "11xRWENET12345-2", 6},
    {eic_soundness, "", 6},
    {eic_check_character, "11XRWENET12345-", '2'},
    {eic_check_character, "10YDK-BALANCE-W", 'M'},
    {eic_check_character, "20Z12345678901E", 'R'},
    {eic_check_character, "11Y123456789012", 'T'},
    {eic_check_character, "38W310005001000", 'S'},
    {eic_check_character, "9QX00000000000K", '0'},
    {eic_check_character, "9QX000000000002", 8},
    {eic_check_character, "9QX00000000000", 6},
    {eic_check_character, "9QA000000000001", 6},
    {eic_ean, "5790000432752", 0},
    {eic_ean, "3027800026402", 0},
    {eic_ean, "4820000000017", 0},
    {eic_ean, "4820000000018", 9},
    {eic_ean, "482000000001", 9},
    {eic_ean, "482000000001X", 9},
};

int main(void) {
    size_t wrong = 0;
    size_t count = sizeof rows / sizeof rows[0];
    for (size_t i = 0; i < count; i++) {
        const struct row *r = &rows[i];
        uint32_t answer = r->check((const uint8_t *)r->text, strlen(r->text));
        if (answer != r->answer) {
            printf("%s: expected %u, got %u\n", r->text, (unsigned)r->answer, (unsigned)answer);
            wrong++;
        }
    }
    printf("gateway: %zu calls, %zu wrong\n", count, wrong);
    return wrong == 0 ? 0 : 1;
}
