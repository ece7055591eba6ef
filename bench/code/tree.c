#include "text.h"

#define LAST 1000

typedef unsigned short link;

struct node {
    integer key;
    unsigned short count;
    link less, greater;
};

static struct node nodes[LAST + 1];
static link root, used;
static integer seed_of_keys;

static integer random_number(integer limit) {
    seed_of_keys = (seed_of_keys * 1309 + 13849) & 65535;
    return seed_of_keys % limit;
}

static link made(integer key) {
    used++;
    nodes[used].key = key;
    nodes[used].count = 1;
    nodes[used].less = 0;
    nodes[used].greater = 0;
    return used;
}

static void add(integer key) {
    if (root == 0) {
        root = made(key);
        return;
    }
    link at = root;
    while (nodes[at].key != key)
        if (key < nodes[at].key) {
            if (nodes[at].less == 0) {
                nodes[at].less = made(key);
                return;
            }
            at = nodes[at].less;
        } else {
            if (nodes[at].greater == 0) {
                nodes[at].greater = made(key);
                return;
            }
            at = nodes[at].greater;
        }
    nodes[at].count++;
}

static integer depth(integer key) {
    integer result = 0;
    link at = root;
    while (at != 0) {
        result++;
        if (nodes[at].key == key) return result;
        if (key < nodes[at].key) at = nodes[at].less;
        else at = nodes[at].greater;
    }
    return -result;
}

static integer sum, place;

static void note(link at) {
    place++;
    sum = (sum * 31 + nodes[at].key * place + nodes[at].count) & 1048575;
}

static void walk(link at) {
    if (at == 0) return;
    walk(nodes[at].less);
    note(at);
    walk(nodes[at].greater);
}

int main(void) {
    seed_of_keys = 11;
    root = 0;
    used = 0;
    for (integer k = 1; k <= 3000; k++) add(random_number(997));
    integer found = 0;
    integer missing = 0;
    for (integer k = 0; k <= 1999; k++)
        if (depth(k) > 0) found = found + depth(k);
        else missing = missing - depth(k);
    sum = 0;
    place = 0;
    walk(root);
    write_integer(used, 0);
    write_text(" keys, ", 7, 0);
    write_integer(found, 0);
    write_text(" ", 1, 0);
    write_integer(missing, 0);
    write_text(" ", 1, 0);
    write_integer(sum, 0);
    end_line();
    return 0;
}
