/* Builds the sheet of two parties for a size-varying word of three units, shows its bytes, and has it checked; then damages it. */
#include <stdio.h>

#include "sepalsail.h"

static void show(const char *what, uint64_t answer) {
    printf("%s: refusal %u at %u\n", what, sepalsail_number(answer), sepalsail_position(answer));
}

int main(void) {
    uint8_t sheet[SEPALSAIL_SHEET_MAX];
    const size_t length = 36;
    show("build kind 1, bound 3, 2 parties", sepalsail_build(1, 3, 2, sheet, sizeof sheet));
    for (size_t i = 0; i < length; i++) {
        printf("%02x%s", sheet[i], i == 7 || i == 21 || i + 1 == length ? "\n" : " ");
    }
    show("check", sepalsail_check(sheet, length));
    /* the top's set now starts one unit lower, so it is no longer aligned */
    sheet[23] = 2;
    show("check with the top moved", sepalsail_check(sheet, length));
    return 0;
}
