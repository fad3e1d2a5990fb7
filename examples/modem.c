/* What ./demo shows last: a permission without a path, by calls of permissions.h. */
#include "permissions.h"

#include <stdio.h>

static uint32_t modem = PERMISSIONS_STATE_PROMPT; /* the whole of it: what the program keeps */

/* One line: what is done, what the operator says if asked, what the call answers. */
static void show(const char *what, uint32_t asked, const char *says, int32_t result)
{
    printf("  %-34s %-16s %s\n", what, asked ? says : "is not asked", permissions_state_name(result));
}

static void check(const char *what, uint32_t may_ask, uint32_t answer, const char *says)
{
    uint32_t asked;
    int32_t result = permissions_unit_check(&modem, may_ask, answer, &asked);

    show(what, asked, says, result);
}

static void request(const char *what, uint32_t may_ask, uint32_t answer, const char *says)
{
    uint32_t asked;
    int32_t result = permissions_unit_request(&modem, may_ask, answer, &asked);

    show(what, asked, says, result);
}

static void revoke(const char *what)
{
    show(what, 0, "", permissions_unit_revoke(&modem));
}

int main(void)
{
    puts("The modem: a yes or no, without a path. Granted is a yes, anything else a no.\n");
    printf("  %-34s %-16s %s\n", "a script", "the operator", "the answer");
    check("checks, and may not ask", 0, PERMISSIONS_ANSWER_ALLOW, "says yes");
    check("checks, and may ask", 1, PERMISSIONS_ANSWER_ALLOW_ALL, "says yes to all");
    check("checks again", 1, PERMISSIONS_ANSWER_DENY, "says no");
    revoke("revokes");
    request("requests, which asks in any case", 0, PERMISSIONS_ANSWER_ALLOW_ALL, "says yes to all");
    revoke("revokes, and a no stays");
    puts("\n  To a check \"yes to all\" is a yes, to a request it is a no: so it is in the Rust.");
    return 0;
}
