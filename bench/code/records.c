#include "text.h"

#define LAST 60

struct person {
    unsigned short number;
    byte group;
    word has, wants;
    integer score;
};

static struct person people[LAST + 1];
static integer seed_of_people;

static integer next(integer limit) {
    seed_of_people = (seed_of_people * 1309 + 13849) & 65535;
    return seed_of_people % limit;
}

static word range(integer first, integer last) {
    word all = 0;
    for (integer k = first; k <= last; k++) all |= 1u << k;
    return all;
}

static void fill(struct person *p, integer number) {
    p->number = (unsigned short)number;
    p->group = (byte)next(7);
    p->has = 0;
    integer first = next(8);
    p->wants = range(first, next(8) + 8);
    p->score = 0;
    for (integer k = 1; k <= 9; k++) p->has |= 1u << next(32);
}

static integer count(word s) {
    integer result = 0;
    for (integer k = 0; k <= 31; k++)
        if (s >> k & 1) result++;
    return result;
}

static void sort(void) {
    for (integer i = 2; i <= LAST; i++) {
        struct person p = people[i];
        integer j = i;
        while (j > 1 && people[j - 1].score < p.score) {
            people[j] = people[j - 1];
            j--;
        }
        people[j] = p;
    }
}

int main(void) {
    integer pairs = 0;
    seed_of_people = 42;
    for (integer i = 1; i <= LAST; i++) fill(&people[i], i);
    for (integer i = 1; i <= LAST; i++)
        for (integer j = 1; j <= LAST; j++)
            if (i != j && people[i].group != people[j].group && (people[i].has & people[j].wants) != 0) {
                pairs++;
                people[i].score = people[i].score + count(people[i].has & people[j].wants);
                if ((people[j].has & ~(people[i].has | people[i].wants)) == 0) people[i].score--;
            }
    sort();
    write_integer(pairs, 0);
    write_text(" pairs", 6, 0);
    end_line();
    for (integer i = 1; i <= 10; i++) {
        write_integer(people[i].number, 4);
        write_integer(people[i].group, 3);
        write_integer(people[i].score, 6);
        write_integer(count(people[i].has), 4);
        end_line();
    }
    return 0;
}
