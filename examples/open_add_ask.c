/* Opens the index, adds two floats, asks where they are an hour later by each
 * method and who comes by in a window, and shows two refusals. */
#include "float_index.h"

#include <stdio.h>

static int32_t store[FLOAT_INDEX_STORE_WORDS];
static int16_t table[FLOAT_INDEX_TABLE_NUMBERS];
static uint16_t list[FLOAT_INDEX_MOST_HELD];

static void print_change(const char *call, float_index_reply reply)
{
    printf("%s: number %zu, value %zu\n", call, reply.number, reply.value);
}

static void print_ask(const char *call, float_index_reply reply)
{
    printf("%s: number %zu, value %zu, cells %zu, useful %zu, rounds %zu, ids", call, reply.number,
           reply.value, reply.cells, reply.useful, reply.rounds);
    for (size_t i = 0; reply.number == FLOAT_INDEX_ACCEPTED && i < reply.value; i++)
        printf(" %d", (int)list[i]);
    printf("\n");
}

/* Asks for x 400,000 to 500,000 and y 0 to 200,000 at time 3,600. */
static float_index_reply ask(int32_t method, size_t ids)
{
    return float_index_ask(store, FLOAT_INDEX_STORE_WORDS, table, FLOAT_INDEX_TABLE_NUMBERS, list,
                           ids, method, 3600, 400000, 0, 500000, 200000);
}

/* Asks for the same rectangle at any moment from time 0 to 2,000. */
static float_index_reply ask_window(int32_t method)
{
    return float_index_ask_window(store, FLOAT_INDEX_STORE_WORDS, table, FLOAT_INDEX_TABLE_NUMBERS,
                                  list, FLOAT_INDEX_MOST_HELD, method, 0, 2000, 400000, 0, 500000,
                                  200000);
}

int main(void)
{
    const size_t words = FLOAT_INDEX_STORE_WORDS, numbers = FLOAT_INDEX_TABLE_NUMBERS;
    static const char *const methods[] = {"naive", "semi-naive", "iterative", "optimal"};

    print_change("open", float_index_open(store, words, table, numbers, 0));
    print_change("add 7", float_index_add(store, words, table, numbers, 7, 0, 100000, 100000, 100, 0));
    print_change("add 9", float_index_add(store, words, table, numbers, 9, 0, 600000, 100000, -50, 0));
    for (int32_t method = FLOAT_INDEX_NAIVE; method <= FLOAT_INDEX_OPTIMAL; method++)
        print_ask(methods[method], ask(method, FLOAT_INDEX_MOST_HELD));
    print_ask("window", ask_window(FLOAT_INDEX_OPTIMAL));
    print_ask("list of one id", ask(FLOAT_INDEX_OPTIMAL, 1));
    print_change("drop 7", float_index_drop(store, words, table, numbers, 7, 10));
    print_change("drop 7", float_index_drop(store, words, table, numbers, 7, 20));
    print_ask("optimal", ask(FLOAT_INDEX_OPTIMAL, FLOAT_INDEX_MOST_HELD));
    return 0;
}
