/*
 * A second door, of another make than the proved one: a text is read loosely with the C library's own number reader, spelled
 * out again by its printer, and taken only if that gives the same bytes; facts are compared as bytes of the state.
 */
#include "model.h"
#include <stdio.h>
#include <stdlib.h>
#include <string.h>

#define LATEST 1099511627775u

struct fact {
    uint64_t predicate;
    int count;
    char kind[5];
    uint64_t value[5];
};

struct procap {
    uint64_t version, who, what, right, from, to, count;
    struct fact facts[17];
};

/* Reads one number after a word, loosely; moves on past both. */
static int take_number(const char **at, const char *word, uint64_t *value)
{
    char *end;
    size_t n = strlen(word);
    if (strncmp(*at, word, n))
        return 0;
    *value = strtoull(*at + n, &end, 10);
    *at = end;
    return 1;
}

/* Reads a fact's line up to its end, loosely. */
static int take_fact(const char **at, struct fact *fact)
{
    if (!take_number(at, "fact=", &fact->predicate))
        return 0;
    for (fact->count = 0; **at == ' ' && fact->count < 5; fact->count++) {
        fact->kind[fact->count] = (*at)[1];
        fact->value[fact->count] = 0;
        if ((*at)[1] == '\0')
            return 0;
        *at += 2;
        if (fact->kind[fact->count] == 'n' || fact->kind[fact->count] == 't')
            take_number(at, "", &fact->value[fact->count]);
    }
    return *(*at)++ == '\n';
}

/* Spells a procap. */
static size_t spell(char *out, const struct procap *p)
{
    uint64_t i;
    int k;
    char *end = out + sprintf(out, "procap=%llu\nwho=%llu\nwhat=%llu\nright=%llu\nfrom=%llu\nto=%llu\nfacts=%llu\n",
                              (unsigned long long)p->version, (unsigned long long)p->who, (unsigned long long)p->what,
                              (unsigned long long)p->right, (unsigned long long)p->from, (unsigned long long)p->to,
                              (unsigned long long)p->count);
    for (i = 0; i < p->count; i++) {
        end += sprintf(end, "fact=%llu", (unsigned long long)p->facts[i].predicate);
        for (k = 0; k < p->facts[i].count; k++) {
            end += sprintf(end, " %c", p->facts[i].kind[k]);
            if (p->facts[i].kind[k] == 'n' || p->facts[i].kind[k] == 't')
                end += sprintf(end, "%llu", (unsigned long long)p->facts[i].value[k]);
        }
        end += sprintf(end, "\n");
    }
    return (size_t)(end - out);
}

/* Whether the fact keeps the limits of the text. */
static int fact_in_form(const struct fact *fact)
{
    int k;
    if (fact->predicate > 65535 || fact->count > 4)
        return 0;
    for (k = 0; k < fact->count; k++) {
        if (!strchr("nt-+c", fact->kind[k]))
            return 0;
        if (fact->value[k] > (fact->kind[k] == 'n' ? 65535u : LATEST))
            return 0;
    }
    return 1;
}

/* Whether the two facts are spelled the same. */
static int same(const struct fact *a, const struct fact *b)
{
    return a->predicate == b->predicate && a->count == b->count && !memcmp(a->kind, b->kind, (size_t)a->count) &&
           !memcmp(a->value, b->value, 8 * (size_t)a->count);
}

/* Reads a procap: loosely, then by its limits, then by spelling it again. */
static int read_procap(const uint8_t *text, size_t length, struct procap *p)
{
    static char copy[4096], again[4096];
    const char *at = copy;
    uint64_t i, j;
    if (length >= sizeof copy)
        return 0;
    memcpy(copy, text, length);
    copy[length] = '\0';
    memset(p, 0, sizeof *p);
    if (!take_number(&at, "procap=", &p->version) || !take_number(&at, "\nwho=", &p->who) || !take_number(&at, "\nwhat=", &p->what) ||
        !take_number(&at, "\nright=", &p->right) || !take_number(&at, "\nfrom=", &p->from) || !take_number(&at, "\nto=", &p->to) ||
        !take_number(&at, "\nfacts=", &p->count) || *at++ != '\n')
        return 0;
    if (p->version != 1 || p->who > 65535 || p->what > 65535 || p->right > 65535 || p->from > p->to || p->to > LATEST || p->count > 16)
        return 0;
    for (i = 0; i < p->count; i++) {
        if (!take_fact(&at, &p->facts[i]) || !fact_in_form(&p->facts[i]))
            return 0;
        for (j = 0; j < i; j++)
            if (same(&p->facts[i], &p->facts[j]))
                return 0;
    }
    return spell(again, p) == length && !memcmp(again, text, length);
}

/* How long the fact at the front of the state is, or 0 if none is there. */
static size_t fact_length(const uint8_t *state, size_t length)
{
    static const size_t sizes[] = {3, 6, 1, 1};
    size_t n = 3, k;
    if (length < 3 || state[2] > 4)
        return 0;
    for (k = 0; k < state[2]; k++) {
        if (n >= length || state[n] > 3)
            return 0;
        n += sizes[state[n]];
    }
    return n <= length ? n : 0;
}

/* The bytes of a fact at a moment, as a state has them. */
static size_t fact_bytes(uint8_t *out, const struct fact *fact, uint64_t moment)
{
    size_t n = 3;
    int k, shift;
    out[0] = (uint8_t)(fact->predicate >> 8);
    out[1] = (uint8_t)fact->predicate;
    out[2] = (uint8_t)fact->count;
    for (k = 0; k < fact->count; k++) {
        uint64_t second = fact->kind[k] == 'c' ? moment : fact->value[k];
        switch (fact->kind[k]) {
        case 'n':
            out[n++] = 0;
            out[n++] = (uint8_t)(fact->value[k] >> 8);
            out[n++] = (uint8_t)fact->value[k];
            break;
        case '-': out[n++] = 2; break;
        case '+': out[n++] = 3; break;
        default:
            out[n++] = 1;
            for (shift = 32; shift >= 0; shift -= 8)
                out[n++] = (uint8_t)(second >> shift);
        }
    }
    return n;
}

/* Whether the fact stands in a state that is well formed. */
static int stands(const struct fact *fact, uint64_t moment, const uint8_t *state, size_t length)
{
    uint8_t wanted[32];
    size_t n = fact_bytes(wanted, fact, moment), at = 0, k;
    for (; at < length; at += k) {
        k = fact_length(state + at, length - at);
        if (k == n && !memcmp(state + at, wanted, n))
            return 1;
    }
    return 0;
}

uint64_t model_door(const uint8_t *text, size_t text_length, uint64_t who, uint64_t what, uint64_t right, uint64_t moment,
                    const uint8_t *state, size_t state_length)
{
    struct procap p;
    size_t at, k;
    uint64_t i;
    if (!read_procap(text, text_length, &p))
        return 256 * 12;
    if (moment > LATEST)
        return 256 * 11;
    if (state_length > 4096)
        return 256 * 7;
    for (at = 0; at < state_length; at += k)
        if (!(k = fact_length(state + at, state_length - at)))
            return 256 * 7;
    if (who != p.who || what != p.what || right != p.right)
        return 256 * 8;
    if (moment < p.from || moment > p.to)
        return 256 * 9;
    for (i = 0; i < p.count; i++)
        if (!stands(&p.facts[i], moment, state, state_length))
            return 256 * 10 + i;
    return 0;
}

uint64_t next_random(void)
{
    static uint64_t seed = 88172645463325252u;
    seed ^= seed << 13;
    seed ^= seed >> 7;
    seed ^= seed << 17;
    return seed >> 8;
}
