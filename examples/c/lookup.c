/* lookup GAME FOLDER: reads positions of Dao or Tac Tix, one on each line, and prints what the tables in FOLDER say of each, as `gamesman query` does.
 * lookup GAME TIER SIZE FILE: prints whether FILE is the file of a tier of SIZE indexes: `ok`, or why not. */
#include "gamesman.h"

#include <stdio.h>
#include <stdlib.h>

/* The tiers of one game that are open. */
typedef struct {
    const char *game, *folder;
    int side;
    gm_tier tiers[GM_MOST_CELLS + 1];
} tables;

static const gm_tier *tier_of(tables *of, int number) {
    gm_tier *tier = &of->tiers[number];
    if (!tier->bytes) {
        char path[4096];
        snprintf(path, sizeof path, "%s/tier-%d.gmt", of->folder, number);
        uint64_t size = of->side ? gm_choose(of->side * of->side, number) : GM_DAO_SIZE;
        const char *why = gm_open(tier, path, of->game, (uint64_t)number, size);
        if (why) {
            fprintf(stderr, "lookup: %s: %s\n", path, why);
            exit(1);
        }
    }
    return tier;
}

static gm_record record_of(tables *of, const char *text) {
    uint64_t index = of->side ? gm_tactix_least(text, of->side) : gm_dao_least(text);
    return index == GM_NO_INDEX ? (gm_record){GM_NONE, 0} : gm_at(tier_of(of, of->side ? gm_count(text, 'x') : 0), index);
}

static void print_record(gm_record it) {
    static const char *const words[] = {"no such position", "lose", "draw", "tie", "win"};
    if (it.value == GM_NONE || it.value == GM_DRAW)
        puts(words[it.value]);
    else
        printf("%s in %u\n", words[it.value], (unsigned)it.remoteness);
}

int main(int count, char **words) {
    if (count == 5) {
        gm_tier tier;
        const char *why = gm_open(&tier, words[4], words[1], strtoull(words[2], NULL, 10), strtoull(words[3], NULL, 10));
        puts(why ? why : "ok");
        gm_close(&tier);
        return why ? 1 : 0;
    }
    tables of = {.game = count == 3 ? words[1] : "", .folder = words[count - 1]};
    if (strncmp(of.game, "tactix-", 7) == 0) of.side = of.game[7] - '0';
    if (strcmp(of.game, "dao") != 0 && (of.side < 1 || of.side > 5)) {
        fputs("lookup: bad line: it is 'lookup dao FOLDER', 'lookup tactix-N FOLDER' or 'lookup GAME TIER SIZE FILE'\n", stderr);
        return 2;
    }
    for (char text[256]; fgets(text, sizeof text, stdin);) {
        text[strcspn(text, "\n")] = 0;
        print_record(record_of(&of, text));
    }
    for (int number = 0; number <= GM_MOST_CELLS; number++) gm_close(&of.tiers[number]);
    return 0;
}
