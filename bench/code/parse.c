#include "text.h"

#define LAST 54

static char text[LAST + 1] = " 3+4*(12-5);100-(7*(8+1))*2; 42 * 42 - 6;((9)+1)*123;0;";
static integer at;

static void skip(void) {
    while (text[at] == ' ') at++;
}

static integer sum(void);

static integer number(void) {
    integer n = 0;
    while (text[at] >= '0' && text[at] <= '9') {
        n = n * 10 + text[at] - '0';
        at++;
    }
    return n;
}

static integer factor(void) {
    integer result;
    skip();
    if (text[at] == '(') {
        at++;
        result = sum();
        skip();
        at++;
    } else result = number();
    skip();
    return result;
}

static integer product(void) {
    integer n = factor();
    while (text[at] == '*') {
        at++;
        n = n * factor();
    }
    return n;
}

static integer sum(void) {
    integer n = product();
    while (text[at] == '+' || text[at] == '-')
        if (text[at] == '+') {
            at++;
            n = n + product();
        } else {
            at++;
            n = n - product();
        }
    return n;
}

int main(void) {
    integer total = 0;
    integer lines = 0;
    for (integer k = 1; k <= 250; k++) {
        at = 1;
        while (at <= LAST) {
            total = (integer)(((word)total * 7u + (word)sum()) & 16777215u);
            lines++;
            at++;
        }
    }
    write_integer(lines, 0);
    write_text(" lines, ", 8, 0);
    write_integer(total, 0);
    end_line();
    return 0;
}
