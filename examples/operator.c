/* What ./demo shows second: a script against an operator who says no, by calls of permissions.h. */
#include "permissions.h"

#include <stdio.h>
#include <string.h>

#define KEYS "/plant/keys" /* what the script is after */

static unsigned char table[PERMISSIONS_TABLE_BYTES];
static char text[PERMISSIONS_TEXT_BYTES];

/* A list with one grant, and the operator may be asked. */
static int begin(void)
{
    int32_t result = permissions_fresh(table, sizeof table);

    if (result == 0)
        result = permissions_insert(table, sizeof table, PERMISSIONS_KIND_GRANTED, "/plant/hours", 12, NULL, 0);
    if (result == 0)
        result = permissions_switches(table, sizeof table, PERMISSIONS_SWITCH_PROMPT);
    if (result != 0)
        printf("refused %d, %s\n", (int)-result, permissions_refusal_name(result));
    return result != 0;
}

/* One line: what is done, what the operator says if asked, what the call answers, and what query in mode partial gives the path then. */
static void show(const char *what, uint32_t asked, uint32_t answer, int32_t result)
{
    int32_t keys = permissions_query(table, sizeof table, PERMISSIONS_MODE_PARTIAL, KEYS, strlen(KEYS), NULL, 0);
    const char *says = answer == PERMISSIONS_ANSWER_DENY ? "says no" : "says yes";

    printf("  %-30s %-14s %-10s %s\n", what, asked ? says : "is not asked", permissions_state_name(result), permissions_state_name(keys));
}

static void check(const char *what, const char *path, uint32_t answer)
{
    uint32_t asked;
    size_t size;
    int32_t result = permissions_check(table, sizeof table, path, strlen(path), NULL, 0, answer, text, sizeof text, &asked, &size);

    show(what, asked, answer, result);
}

static void request(const char *what, const char *path, uint32_t answer)
{
    uint32_t asked;
    size_t size;
    int32_t result = permissions_request(table, sizeof table, path, strlen(path), NULL, 0, answer, text, sizeof text, &asked, &size);

    show(what, asked, answer, result);
}

static void request_all(const char *what, uint32_t answer)
{
    uint32_t asked;
    size_t size;
    int32_t result = permissions_request_all(table, sizeof table, answer, text, sizeof text, &asked, &size);

    show(what, asked, answer, result);
}

int main(void)
{
    puts("The operator against the script: is saying no enough? A script is after " KEYS ".\n");
    if (begin())
        return 1;
    printf("  %-30s %-14s %-10s %s\n", "a script", "the operator", "the answer", KEYS);
    request_all("requests everything", PERMISSIONS_ANSWER_DENY);
    request("requests /plant", "/plant", PERMISSIONS_ANSWER_DENY);
    check("checks " KEYS, KEYS, PERMISSIONS_ANSWER_DENY);
    request("requests " KEYS "/old", KEYS "/old", PERMISSIONS_ANSWER_ALLOW);
    request("requests /plant/hours", "/plant/hours", PERMISSIONS_ANSWER_ALLOW_ALL);
    request("requests " KEYS, KEYS, PERMISSIONS_ANSWER_ALLOW_ALL);
    show("revokes everything", 0, PERMISSIONS_ANSWER_DENY, permissions_revoke_all(table, sizeof table));
    puts("\n  A list that begins anew:");
    if (begin())
        return 1;
    request("requests " KEYS, KEYS, PERMISSIONS_ANSWER_ALLOW);
    puts("\n  A path that is neither Granted nor GrantedPartial stays so, whatever scripts query, check, request and revoke, as long as the operator");
    puts("  never says yes to it, to a path above it or to everything, never \"yes to all\", and nobody else inserts entries or sets switches.");
    puts("  A yes to the question about the path itself opens it.");
    return 0;
}
