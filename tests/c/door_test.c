/*
 * The door as the desk firmware calls it: the presses of docs/SCOPE.md, the order of the answers, the edges of every
 * limit, and damaged texts and states held against a second reader (model.c). Every buffer is lent in a block of just
 * its size, so that valgrind sees a byte read past an end.
 *
 *     door_test [DAMAGED]     how many damaged presses to try
 */
#include "../../include/procap.h"
#include "model.h"
#include <stdio.h>
#include <stdlib.h>
#include <string.h>

static unsigned long passed, failed;

/* Calls the door on copies of the two buffers, and sees that it left them as they were. */
static uint64_t door(const uint8_t *text, size_t text_length, uint64_t who, uint64_t what, uint64_t right, uint64_t moment,
                     const uint8_t *state, size_t state_length)
{
    uint8_t *lent_text = text_length ? malloc(text_length) : NULL;
    uint8_t *lent_state = state_length ? malloc(state_length) : NULL;
    uint64_t answer;
    if (text_length)
        memcpy(lent_text, text, text_length);
    if (state_length)
        memcpy(lent_state, state, state_length);
    answer = procap_door(lent_text, text_length, who, what, right, moment, lent_state, state_length);
    if ((text_length && memcmp(lent_text, text, text_length)) || (state_length && memcmp(lent_state, state, state_length))) {
        printf("a lent buffer was written to\n");
        failed++;
    }
    free(lent_text);
    free(lent_state);
    return answer;
}

static void expect(const char *what, uint64_t answer, uint64_t number, uint64_t place)
{
    if (answer == 256 * number + place) {
        passed++;
        return;
    }
    failed++;
    printf("%s: expected %llu at %llu, got %llu at %llu\n", what, (unsigned long long)number, (unsigned long long)place,
           (unsigned long long)(answer / 256), (unsigned long long)(answer % 256));
}

static const char *const text_p = "procap=1\nwho=2\nwhat=7\nright=9\nfrom=1000\nto=2000\nfacts=1\nfact=200 n7\n";
static const uint8_t loaded[] = {0x00, 0xc8, 0x01, 0x00, 0x00, 0x07};
#define LATEST 1099511627775u

/* A press on case P's request. */
static uint64_t press(const char *text, uint64_t moment, const uint8_t *state, size_t state_length)
{
    return door((const uint8_t *)text, strlen(text), 2, 7, 9, moment, state, state_length);
}

/* The presses of docs/SCOPE.md that are the door's. */
static void presses_of_the_scope(void)
{
    static const uint8_t logged[] = {0x00, 0xc9, 0x02, 0x00, 0x00, 0x07, 0x01, 0x00, 0x00, 0x00, 0x05, 0xdc};
    static const uint8_t logged_later[] = {0x00, 0xc9, 0x02, 0x00, 0x00, 0x07, 0x01, 0x00, 0x00, 0x00, 0x05, 0xdd};
    const char *always = "procap=1\nwho=2\nwhat=7\nright=9\nfrom=0\nto=1099511627775\nfacts=1\nfact=201 n7 c\n";
    expect("P at 1000", press(text_p, 1000, loaded, sizeof loaded), 0, 0);
    expect("P at 2000", press(text_p, 2000, loaded, sizeof loaded), 0, 0);
    expect("P at 999", press(text_p, 999, loaded, sizeof loaded), 9, 0);
    expect("P at 2001", press(text_p, 2001, loaded, sizeof loaded), 9, 0);
    expect("P in the empty state", press(text_p, 1500, NULL, 0), 10, 0);
    expect("P asked for who=3", door((const uint8_t *)text_p, strlen(text_p), 3, 7, 9, 1500, loaded, sizeof loaded), 8, 0);
    expect("201(7, ctime) at 1500, state 201(7, 1500)", press(always, 1500, logged, sizeof logged), 0, 0);
    expect("201(7, ctime) at 1500, state 201(7, 1501)", press(always, 1500, logged_later, sizeof logged_later), 10, 0);
    expect("201(7, ctime) at 1501, state 201(7, 1501)", press(always, 1501, logged_later, sizeof logged_later), 0, 0);
}

/* Each answer where all later ones would apply too. */
static void order_of_answers(void)
{
    static const uint8_t half[] = {0x00};
    const uint8_t *p = (const uint8_t *)text_p;
    size_t n = strlen(text_p);
    expect("12 before all", door(p, n - 1, 3, 7, 9, LATEST + 1, half, 1), 12, 0);
    expect("11 before 7", door(p, n, 3, 7, 9, LATEST + 1, half, 1), 11, 0);
    expect("7 before 8", door(p, n, 3, 7, 9, 1, half, 1), 7, 0);
    expect("8 before 9", door(p, n, 3, 7, 9, 1, NULL, 0), 8, 0);
    expect("9 before 10", door(p, n, 2, 7, 9, 1, NULL, 0), 9, 0);
    expect("10", door(p, n, 2, 7, 9, 1000, NULL, 0), 10, 0);
    expect("8 by what", door(p, n, 2, 8, 9, 1500, loaded, sizeof loaded), 8, 0);
    expect("8 by right", door(p, n, 2, 7, 8, 1500, loaded, sizeof loaded), 8, 0);
}

/* Numbers that are too wide, and buffers that are empty, overlap or are the same. */
static void odd_calls(void)
{
    uint8_t both[128];
    const uint8_t *p = (const uint8_t *)text_p;
    size_t n = strlen(text_p);
    expect("who + 65,536", door(p, n, 2 + 65536, 7, 9, 1500, loaded, sizeof loaded), 8, 0);
    expect("what + 2^32", door(p, n, 2, 7 + 4294967296u, 9, 1500, loaded, sizeof loaded), 8, 0);
    expect("right - 1 below zero", door(p, n, 2, 7, (uint64_t)-1, 1500, loaded, sizeof loaded), 8, 0);
    expect("the largest moment", door(p, n, 2, 7, 9, UINT64_MAX, loaded, sizeof loaded), 11, 0);
    expect("the latest moment", door(p, n, 2, 7, 9, LATEST, loaded, sizeof loaded), 9, 0);
    expect("nothing at all", door(NULL, 0, 0, 0, 0, 0, NULL, 0), 12, 0);
    expect("nothing, lent", door((const uint8_t *)"x", 0, 2, 7, 9, 1500, (const uint8_t *)"x", 0), 12, 0);
    memcpy(both, text_p, n);
    memcpy(both + n, loaded, sizeof loaded);
    expect("text and state in one block", procap_door(both, n, 2, 7, 9, 1500, both + n, sizeof loaded), 0, 0);
    expect("the text as the state", procap_door(both, n, 2, 7, 9, 1500, both, n), 7, 0);
    expect("a state that overlaps the text", procap_door(both, n, 2, 7, 9, 1500, both + n - 1, sizeof loaded + 1), 7, 0);
}

/* Texts at and past each limit. */
static void edges_of_the_text(void)
{
    static const char *const no_texts[] = {
        "", "\n", "procap=1\n", "procap=0\nwho=2\nwhat=7\nright=9\nfrom=1000\nto=2000\nfacts=0\n",
        "procap=2\nwho=2\nwhat=7\nright=9\nfrom=1000\nto=2000\nfacts=0\n",
        "procap=01\nwho=2\nwhat=7\nright=9\nfrom=1000\nto=2000\nfacts=0\n",
        "procap=1\nwho=02\nwhat=7\nright=9\nfrom=1000\nto=2000\nfacts=0\n",
        "procap=1\nwho=+2\nwhat=7\nright=9\nfrom=1000\nto=2000\nfacts=0\n",
        "procap=1\nwho= 2\nwhat=7\nright=9\nfrom=1000\nto=2000\nfacts=0\n",
        "procap=1\nwho=\nwhat=7\nright=9\nfrom=1000\nto=2000\nfacts=0\n",
        "procap=1\nwho=65536\nwhat=7\nright=9\nfrom=1000\nto=2000\nfacts=0\n",
        "procap=1\nwho=18446744073709551618\nwhat=7\nright=9\nfrom=1000\nto=2000\nfacts=0\n",
        "procap=1\r\nwho=2\r\nwhat=7\r\nright=9\r\nfrom=1000\r\nto=2000\r\nfacts=0\r\n",
        "procap=1\nwho=2\nwhat=7\nright=9\nfrom=1000\nto=2000\nfacts=0",
        "procap=1\nwho=2\nwhat=7\nright=9\nfrom=1000\nto=2000\nfacts=0\n\n",
        "procap=1\n\nwho=2\nwhat=7\nright=9\nfrom=1000\nto=2000\nfacts=0\n",
        "procap=1\nwhat=7\nwho=2\nright=9\nfrom=1000\nto=2000\nfacts=0\n",
        "procap=1\nwho=2\nwhat=7\nright=9\nfrom=2001\nto=2000\nfacts=0\n",
        "procap=1\nwho=2\nwhat=7\nright=9\nfrom=1000\nto=1099511627776\nfacts=0\n",
        "procap=1\nwho=2\nwhat=7\nright=9\nfrom=1000\nto=2000\nfacts=00\n",
        "procap=1\nwho=2\nwhat=7\nright=9\nfrom=1000\nto=2000\nfacts=17\n",
        "procap=1\nwho=2\nwhat=7\nright=9\nfrom=1000\nto=2000\nfacts=1\n",
        "procap=1\nwho=2\nwhat=7\nright=9\nfrom=1000\nto=2000\nfacts=0\nfact=200 n7\n",
        "procap=1\nwho=2\nwhat=7\nright=9\nfrom=1000\nto=2000\nfacts=2\nfact=200 n7\nfact=200 n7\n",
        "procap=1\nwho=2\nwhat=7\nright=9\nfrom=1000\nto=2000\nfacts=1\nfact=200  n7\n",
        "procap=1\nwho=2\nwhat=7\nright=9\nfrom=1000\nto=2000\nfacts=1\nfact=200 n7 \n",
        "procap=1\nwho=2\nwhat=7\nright=9\nfrom=1000\nto=2000\nfacts=1\nfact=200 N7\n",
        "procap=1\nwho=2\nwhat=7\nright=9\nfrom=1000\nto=2000\nfacts=1\nfact=200 n07\n",
        "procap=1\nwho=2\nwhat=7\nright=9\nfrom=1000\nto=2000\nfacts=1\nfact=200 n65536\n",
        "procap=1\nwho=2\nwhat=7\nright=9\nfrom=1000\nto=2000\nfacts=1\nfact=200 t1099511627776\n",
        "procap=1\nwho=2\nwhat=7\nright=9\nfrom=1000\nto=2000\nfacts=1\nfact=200 -1\n",
        "procap=1\nwho=2\nwhat=7\nright=9\nfrom=1000\nto=2000\nfacts=1\nfact=65536\n",
        "procap=1\nwho=2\nwhat=7\nright=9\nfrom=1000\nto=2000\nfacts=1\nfact=200 - - - - -\n",
    };
    size_t i, n = strlen(text_p);
    for (i = 0; i < sizeof no_texts / sizeof *no_texts; i++)
        expect(no_texts[i], press(no_texts[i], 1500, loaded, sizeof loaded), 12, 0);
    for (i = 0; i < n; i++)
        expect("a cut text", door((const uint8_t *)text_p, i, 2, 7, 9, 1500, loaded, sizeof loaded), 12, 0);
    expect("no facts", press("procap=1\nwho=2\nwhat=7\nright=9\nfrom=1500\nto=1500\nfacts=0\n", 1500, NULL, 0), 0, 0);
}

/* The longest text there is, its state, and what comes of taking any one of its facts away. */
static void the_longest(void)
{
    static char text[2048];
    uint8_t state[1024], part[1024];
    size_t n, i, k;
    char *end = text + sprintf(text, "procap=1\nwho=65535\nwhat=65535\nright=65535\nfrom=1099511627775\nto=1099511627775\nfacts=16\n");
    for (i = 0; i < 16; i++) {
        end += sprintf(end, "fact=%d", (int)(65535 - i));
        for (k = 0; k < 4; k++)
            end += sprintf(end, " t1099511627775");
        end += sprintf(end, "\n");
        state[27 * i] = 0xff;
        state[27 * i + 1] = (uint8_t)(0xff - i);
        state[27 * i + 2] = 4;
        for (k = 0; k < 4; k++)
            memcpy(state + 27 * i + 3 + 6 * k, "\x01\xff\xff\xff\xff\xff", 6);
    }
    n = (size_t)(end - text);
    expect("the longest text has 1,223 bytes", n == 1223 ? 0 : 256, 0, 0);
    expect("the longest text", door((uint8_t *)text, n, 65535, 65535, 65535, LATEST, state, 16 * 27), 0, 0);
    for (i = 0; i < 16; i++) {
        memcpy(part, state, 27 * i);
        memcpy(part + 27 * i, state + 27 * (i + 1), 27 * (15 - i));
        expect("a fact taken away", door((uint8_t *)text, n, 65535, 65535, 65535, LATEST, part, 15 * 27), 10, i);
    }
    text[strlen("procap=1\nwho=65535\nwhat=65535\nright=65535\nfrom=1099511627775\nto=1099511627775\nfacts=1")] = '7';
    memmove(end, text + n - 71, 71);
    expect("seventeen facts", door((uint8_t *)text, n + 71, 65535, 65535, 65535, LATEST, state, 16 * 27), 12, 0);
}

/* States at and past each limit. */
static void edges_of_the_state(void)
{
    static const struct {
        const char *bytes;
        size_t length;
        unsigned number;
    } states[] = {
        {"\x00\xc8\x01\x00\x00\x07", 5, 7},
        {"\x00\xc8\x01\x00\x00\x07\x00", 7, 7},
        {"\x00\xc8\x01\x00\x00\x07\x00\xc8\x01\x00\x00\x07", 12, 0},
        {"\x00\xc9\x00\x00\xc8\x01\x00\x00\x07", 9, 0},
        {"\x00\xc8\x01\x00\x00\x07\x00\xc9\x05\x02\x02\x02\x02\x02", 14, 7},
        {"\x00\xc8\x01\x00\x00\x07\x00\xc9\x04\x02\x02\x03\x03", 13, 0},
        {"\x00\xc8\x01\x00\x00\x07\x00\xc9\x01\x04", 10, 7},
        {"\x00\xc8\x01\x00\x00\x07\x00\xc9\x01\x05\x00", 11, 7},
        {"\x00\xc8\x01\x00\x00\x07\x00\xc9\x01\xff", 10, 7},
        {"\x00\xc8\x01\x01\x00\x00\x00\x00\x07", 9, 10},
        {"\x00\xc8\x02\x00\x00\x07\x02", 7, 10},
        {"\x00\xc8\x00", 3, 10},
    };
    static uint8_t full[4097];
    size_t i;
    for (i = 0; i < sizeof states / sizeof *states; i++)
        expect("a state", press(text_p, 1500, (const uint8_t *)states[i].bytes, states[i].length), states[i].number, 0);
    memcpy(full, loaded, 6);
    memcpy(full + 6, "\x00\xc9\x01\x02", 4);
    expect("4,096 bytes of state", press(text_p, 1500, full, 4096), 0, 0);
    memcpy(full + 10, "\x00\xc9\x01\x02", 4);
    expect("4,097 bytes of state", press(text_p, 1500, full, 4097), 7, 0);
}

/* A press that is to be damaged. */
struct draft {
    uint8_t text[160], state[96];
    size_t text_length, state_length;
    uint64_t who, moment;
};

/* Puts a byte in at a random place of some bytes, takes one out, or puts one for another. */
static void damage_bytes(uint8_t *bytes, size_t *length, uint8_t byte)
{
    size_t at = next_random() % *length;
    switch (next_random() % 3) {
    case 0:
        memmove(bytes + at + 1, bytes + at, *length - at);
        bytes[at] = byte;
        ++*length;
        break;
    case 1:
        memmove(bytes + at, bytes + at + 1, *length - at - 1);
        --*length;
        break;
    default:
        bytes[at] = byte;
    }
}

/* Damages a press in one small way. */
static void damage(struct draft *press)
{
    static const char letters[] = "0123456789=\n\r -+nct\0fp";
    switch (next_random() % 8) {
    case 0: press->moment = next_random() % 2100; break;
    case 1: press->who = next_random() % 4; break;
    case 2:
    case 3: damage_bytes(press->state, &press->state_length, (uint8_t)(next_random() % 8)); break;
    case 4: damage_bytes(press->text, &press->text_length, (uint8_t)next_random()); break;
    default: damage_bytes(press->text, &press->text_length, (uint8_t)letters[next_random() % (sizeof letters - 1)]);
    }
}

/* Damaged copies of sound presses, held against the model. */
static void damaged(unsigned long count)
{
    static const char *const sound[] = {
        "procap=1\nwho=2\nwhat=7\nright=9\nfrom=1000\nto=2000\nfacts=1\nfact=200 n7\n",
        "procap=1\nwho=2\nwhat=7\nright=9\nfrom=0\nto=1099511627775\nfacts=2\nfact=201 n7 c\nfact=3 - + t1500 n0\n",
        "procap=1\nwho=2\nwhat=7\nright=9\nfrom=10\nto=1600\nfacts=3\nfact=1\nfact=10\nfact=100 c c\n",
    };
    static const uint8_t all[] = {0x00, 0xc8, 0x01, 0x00, 0x00, 0x07, 0x00, 0xc9, 0x02, 0x00, 0x00, 0x07, 0x01, 0x00, 0x00, 0x00,
                                  0x05, 0xdc, 0x00, 0x03, 0x04, 0x02, 0x03, 0x01, 0x00, 0x00, 0x00, 0x05, 0xdc, 0x00, 0x00, 0x00,
                                  0x00, 0x01, 0x00, 0x00, 0x0a, 0x00, 0x00, 0x64, 0x02, 0x01, 0x00, 0x00, 0x00, 0x05, 0xdc, 0x01,
                                  0x00, 0x00, 0x00, 0x05, 0xdc};
    unsigned long seen[16] = {0}, i;
    for (i = 0; i < count; i++) {
        const char *text = sound[next_random() % 3];
        struct draft p = {.text_length = strlen(text), .state_length = sizeof all, .who = 2, .moment = 1500};
        uint64_t changes, wanted;
        memcpy(p.text, text, p.text_length);
        memcpy(p.state, all, p.state_length);
        for (changes = next_random() % 3; changes; changes--)
            damage(&p);
        wanted = model_door(p.text, p.text_length, p.who, 7, 9, p.moment, p.state, p.state_length);
        expect("a damaged press", door(p.text, p.text_length, p.who, 7, 9, p.moment, p.state, p.state_length), wanted / 256, wanted % 256);
        seen[wanted / 256]++;
    }
    printf("damaged presses: %lu open, %lu with 7, %lu with 8, %lu with 9, %lu with 10, %lu with 12\n", seen[0], seen[7], seen[8],
           seen[9], seen[10], seen[12]);
    if (count >= 10000)
        expect("damage reaches every answer but 11", seen[0] && seen[7] && seen[8] && seen[9] && seen[10] && seen[12] ? 0 : 256, 0, 0);
}

int main(int argc, char **argv)
{
    unsigned long count = argc > 1 ? strtoul(argv[1], NULL, 10) : 200000;
    presses_of_the_scope();
    order_of_answers();
    odd_calls();
    edges_of_the_text();
    edges_of_the_state();
    the_longest();
    damaged(count);
    printf("the door from C: %lu presses passed, %lu failed\n", passed, failed);
    return failed != 0;
}
