/* The report of a board of some millions of configurations, by the definitions and with no classes, no gaps and no rounds.

   It goes through all configurations in order, again and again, and asks of each that lasts `depth` requests whether each request of a
   pebble has a legal label after which it lasts as many. A board with `board 2`, and one that is no board, is not for it. */
#include <stdio.h>
#include <stdlib.h>
#include <string.h>

enum { MOST_LABELS = 256, MOST_PEBBLES = 6 };

static char beats[MOST_LABELS][MOST_LABELS];
static int labels, pebbles, start[MOST_PEBBLES];
static long weights[MOST_PEBBLES];

static int is_legal(const int at[], int pebble, int label) {
    for (int other = 0; other < pebbles; other++)
        if (other != pebble && !beats[label][at[other]])
            return 0;
    return 1;
}

/* whether a request of the pebble has a legal label after which a configuration lasts */
static int is_answered(const int at[], long rank, int pebble, const char lasting[]) {
    for (int label = 0; label < labels; label++)
        if (is_legal(at, pebble, label) && lasting[rank + (label - at[pebble]) * weights[pebble]])
            return 1;
    return 0;
}

static int lasts_longer(const int at[], long rank, const char lasting[]) {
    for (int pebble = 0; pebble < pebbles; pebble++)
        if (!is_answered(at, rank, pebble, lasting))
            return 0;
    return 1;
}

static void next(int at[]) {
    for (int pebble = pebbles - 1; pebble >= 0 && ++at[pebble] == labels; pebble--)
        at[pebble] = 0;
}

/* the number of configurations that last `depth` requests and no more; the others are those of `longer` */
static long stopping(long configurations, const char lasting[], char longer[]) {
    int at[MOST_PEBBLES] = {0};
    long count = 0;
    for (long rank = 0; rank < configurations; rank++, next(at)) {
        longer[rank] = lasting[rank] && lasts_longer(at, rank, lasting);
        count += lasting[rank] - longer[rank];
    }
    return count;
}

int main(void) {
    int x, y;
    if (scanf("board 1 labels %d pebbles %d start", &labels, &pebbles) != 2)
        return 1;
    long configurations = 1, place = 0;
    for (int pebble = pebbles - 1; pebble >= 0; pebble--) {
        weights[pebble] = configurations;
        configurations *= labels;
    }
    for (int pebble = 0; pebble < pebbles; pebble++) {
        if (scanf("%d", &start[pebble]) != 1)
            return 1;
        place += start[pebble] * weights[pebble];
    }
    while (scanf(" beats %d %d", &x, &y) == 2)
        beats[x][y] = 1;
    char *lasting = malloc(configurations), *longer = malloc(configurations);
    long *counts = calloc(configurations + 1, sizeof *counts), depth = 0, value = -1, all = 0;
    if (!lasting || !longer || !counts)
        return 1;
    memset(lasting, 1, configurations);
    while ((counts[depth] = stopping(configurations, lasting, longer)) > 0) {
        if (lasting[place] && !longer[place])
            value = depth;
        all += counts[depth++];
        char *before = lasting;
        lasting = longer;
        longer = before;
    }
    printf("report 1\nlabels %d\npebbles %d\nconfigurations %ld\n", labels, pebbles, configurations);
    if (value < 0)
        printf("start forever\n");
    else
        printf("start value %ld\n", value);
    for (long each = 0; each < depth; each++)
        printf("value %ld: %ld\n", each, counts[each]);
    printf("forever: %ld\nend\n", configurations - all);
    return 0;
}
