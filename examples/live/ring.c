/* A ring of three nodes with customers both ways: ring [TURNS].
 *
 *     cc -I include examples/live/ring.c out/libotn.a -o ring && ./ring
 *
 * Line 0 leads on, line 1 back. Client 0 of each node sends on, client 1 back, and what comes of either goes to clients 2
 * and 3. Nothing waits: what leaves in a turn is there before anything of that turn is handed in. */
#include "otn.h"
#include <stdio.h>
#include <stdlib.h>
#include <string.h>

enum { NODES = 3, TURN = 8 * 16320, TEXT = 1 << 20 };

static const char PLAN[] =
    "turns = %d\n"
    "[[connection]]\nname = \"on\"\nkind = \"odu0\"\nfrom = { client = 0 }\nto = { line = 0, port = 1, slots = [1] }\n"
    "[[connection]]\nname = \"back\"\nkind = \"odu0\"\nfrom = { client = 1 }\nto = { line = 1, port = 1, slots = [1] }\n"
    "[[connection]]\nname = \"on-in\"\nkind = \"odu0\"\nfrom = { line = 0, port = 1, slots = [1] }\nto = { client = 2 }\n"
    "[[connection]]\nname = \"back-in\"\nkind = \"odu0\"\nfrom = { line = 1, port = 1, slots = [1] }\nto = { client = 3 }\n";

static struct otn_node nodes[NODES];
static uint8_t leaves[NODES][2][TURN], text[TEXT];

static void want(uint32_t code, uint32_t wanted, const char *what)
{
    if (code != wanted) {
        fprintf(stderr, "%s: answered %u\n", what, (unsigned)code);
        exit(1);
    }
}

/* Hands in a packet of so many bytes of this value, as its text. */
static void send_packet(struct otn_node *node, uint32_t client, size_t size, int value)
{
    static const char digits[] = "0123456789abcdef";
    for (size_t n = 0; n < size; n++) {
        text[2 * n] = (uint8_t)digits[value >> 4];
        text[2 * n + 1] = (uint8_t)digits[value & 15];
    }
    text[2 * size] = '\n';
    want(otn_hand_in(node, client, text, 2 * size + 1), OTN_DONE, "otn_hand_in");
}

/* Fills a client up: packets of bytes 0, and then empty lines. */
static void fill(struct otn_node *node, uint32_t client)
{
    struct otn_told told;
    for (;;) {
        want(otn_lack(node, client, &told), OTN_DONE, "otn_lack");
        if (told.length)
            send_packet(node, client, told.length, 0);
        else if (told.place)
            want(otn_hand_in(node, client, memset(text, '\n', told.place), told.place), OTN_DONE, "otn_hand_in");
        else
            return;
    }
}

/* How many packets with another byte than 0 leave at a client. */
static unsigned came(struct otn_node *node, uint32_t client)
{
    struct otn_told told;
    unsigned count = 0, filled = 0;
    want(otn_left(node, client, text, sizeof text, &told), OTN_DONE, "otn_left");
    for (size_t n = 0; n < told.length; n++) {
        if (text[n] == '\n') {
            count += filled;
            filled = 0;
        } else if (text[n] != '0')
            filled = 1;
    }
    return count;
}

int main(int argc, char **argv)
{
    int turns = argc > 1 ? atoi(argv[1]) : 60;
    char plan[2000];
    unsigned sent = 0, got = 0;
    struct otn_told told;
    int length = snprintf(plan, sizeof plan, PLAN, turns);
    for (int i = 0; i < NODES; i++)
        want(otn_open((const uint8_t *)plan, (size_t)length, &nodes[i], &told), OTN_DONE, "otn_open");
    for (int turn = 1; turn <= turns; turn++) {
        for (int i = 0; i < NODES; i++)
            for (int line = 0; line < 2; line++)
                want(otn_left(&nodes[i], OTN_LINE(line), leaves[i][line], TURN, &told), OTN_DONE, "otn_left");
        for (int i = 0; i < NODES; i++) {
            want(otn_hand_in(&nodes[i], OTN_LINE(0), leaves[(i + 2) % NODES][0], TURN), OTN_DONE, "otn_hand_in");
            want(otn_hand_in(&nodes[i], OTN_LINE(1), leaves[(i + 1) % NODES][1], TURN), OTN_DONE, "otn_hand_in");
            for (uint32_t client = 0; client < 2; client++) {
                for (int n = 0; n < turn % 4; n++, sent++)
                    send_packet(&nodes[i], OTN_CLIENT(client), 200, 1 + (turn + n) % 255);
                fill(&nodes[i], OTN_CLIENT(client));
            }
        }
        for (int i = 0; i < NODES; i++) {
            want(otn_turn(&nodes[i], &told), OTN_DONE, "otn_turn");
            got += came(&nodes[i], OTN_CLIENT(2)) + came(&nodes[i], OTN_CLIENT(3));
        }
    }
    for (int i = 0; i < NODES; i++) {
        want(otn_turn(&nodes[i], &told), OTN_OVER, "otn_turn past the last");
        want(otn_report(&nodes[i], text, sizeof text, &told), OTN_DONE, "otn_report");
        if (i == 0)
            printf("%.*s", (int)told.length, (const char *)text);
        want(otn_close(&nodes[i]), OTN_DONE, "otn_close");
        want(otn_close(&nodes[i]), OTN_NO_CALL, "otn_close of an empty handle");
    }
    printf("%d nodes, %d turns: %u packets sent, %u came\n", NODES, turns, sent, got);
    return got == 0 || got > sent;
}
