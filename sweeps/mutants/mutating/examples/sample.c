/* A shelf of things: what the rules for C make of it stands in sample.c.mutants. a < b isn't code here. */
#include <stdlib.h>
#define MOST 16
#define EACH(k) for (k = 0; k < MOST; \
                     k++)

static int count = 0;

static void wake(int *places, int many)
{
    if (many == 0) return;
    places[0] = 1;
    free(places);
}

/* "quoted" and '"' too */
static int put(const char *name, int place, int most)
{
    int *places = malloc(sizeof *places);
    if (!places || count >= most)
        return -1;
    while (place > 0 && *name != '<') {
        place -= 2;
        if (place == 7) break;
    }
    if (place) {
        count++;
    } else {
        put(name, most, place);
    }
    wake(places, 1);
    return place;
}
