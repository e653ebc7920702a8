/* A small machine with a stack, whose instructions are rows of a table: a name, how many it takes, and what does it. */
#include <string.h>
#include "check.h"

static int stack[16], memory[64], top, at, running;

static void push(int value) { stack[top++] = value; }
static int pop(void) { return stack[--top]; }

static void halt(void) { running = 0; }
static void add(void) { int b = pop(); push(pop() + b); }
static void subtract(void) { int b = pop(); push(pop() - b); }
static void multiply(void) { int b = pop(); push(pop() * b); }
static void divide(void) { int b = pop(); push(pop() / b); }
static void rest(void) { int b = pop(); push(pop() % b); }
static void less(void) { int b = pop(); push(pop() < b); }
static void twice(void) { push(stack[top - 1]); }
static void swap(void) { int b = pop(), a = pop(); push(b); push(a); }
static void load(void) { push(memory[pop()]); }
static void store(void) { int place = pop(); memory[place] = pop(); }
static void skip(void) { int to = pop(); at = to; }
static void branch(void) { int to = pop(); if (pop()) at = to; }

static const struct row { char name[6]; signed char needs; void (*does)(void); } rows[] = {
    {"halt", 0, halt}, {"add", 2, add}, {"sub", 2, subtract}, {"mul", 2, multiply}, {"div", 2, divide}, {"mod", 2, rest},
    {"less", 2, less}, {"dup", 1, twice}, {"swap", 2, swap}, {"load", 1, load}, {"store", 2, store}, {"jump", 1, skip},
    {"if", 2, branch},
};
enum { ROWS = sizeof rows / sizeof *rows };

/* A program in words: names of rows, and numbers. Codes below ROWS are rows, others numbers with ROWS added. */
static short code[96];

static void assemble(const char *text)
{
    for (at = 0; *text; at++) {
        size_t length = strcspn(text, " ");
        int found = -1, number = 0;
        for (int i = 0; i < ROWS; i++)
            if (strncmp(rows[i].name, text, length) == 0 && rows[i].name[length] == 0)
                found = i;
        for (size_t i = 0; found < 0 && i < length; i++)
            number = number * 10 + text[i] - '0';
        code[at] = (short)(found < 0 ? ROWS + number : found);
        text += length;
        text += strspn(text, " ");
    }
}

static int run(const char *text)
{
    assemble(text);
    memset(memory, 0, sizeof memory);
    at = top = 0;
    running = 1;
    for (int steps = 0; running && steps < 1200; steps++) {
        int word = code[at++];
        if (word >= ROWS)
            push(word - ROWS);
        else if (top >= rows[word].needs)
            rows[word].does();
        else
            return -1;
    }
    return running ? -2 : top ? pop() : -3;
}

int main(void)
{
    CHECK(run("2 3 4 mul add halt") == 14);
    CHECK(run("add halt") == -1);
    CHECK(run("0 jump") == -2);
    /* 10 factorial */
    CHECK(run("1 10 0 store 0 load mul 0 load 1 sub dup 0 store 0 swap less 4 if halt") == 3628800);
    /* the greatest common divisor of 1071 and 462 */
    CHECK(run("1071 0 store 462 1 store 1 load dup 0 load swap mod 1 store 0 store 0 1 load less 6 if 0 load halt") == 21);
    /* the 20th number of Fibonacci */
    CHECK(run("1 1 store 19 2 store 1 load dup 0 load add 1 store 0 store 2 load 1 sub dup 2 store 0 swap less 6 if 1 load halt") == 6765);
    return wrong;
}
