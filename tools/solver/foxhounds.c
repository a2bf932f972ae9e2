// Fox and Hounds, solved by the words of its rules alone (docs/GAMES.md). foxhounds WINS LOSSES: writes the rows of the positions that are won to one file and
// those of the lost ones to the other, by index, as `find` prints them: the text of a position, its value, its best move and how many moves it has. Every second
// move takes a hound forwards, so that each game ends and recursion solves it.
#include <stdio.h>
#include <stdlib.h>

enum { SQUARES = 32, PLACES = 28, HOUNDS = 4, SETS = 35960, POSITIONS = SETS * PLACES * 2, WIN = 1, LOSE = 2 };

typedef struct {
    unsigned hounds; // bit k: a hound on square k
    int fox, hounds_move;
} Board;

static int choose[SQUARES + 1][HOUNDS + 1];
static unsigned sets[SETS]; // the hounds by their rank
static unsigned char value[POSITIONS], remoteness[POSITIONS];

// The row and the file of a square, from 0. The dark squares of a row are every second one: a1 is dark.
static int row(int square) { return square / 4; }
static int file(int square) { return 2 * (square % 4) + row(square) % 2; }

// The square one row up or down and one file to the right or left, or -1.
static int beside(int square, int up, int right) {
    int r = row(square) + up, f = file(square) + right;
    return r < 0 || r > 7 || f < 0 || f > 7 ? -1 : 4 * r + f / 2;
}

static int index_of(Board b) {
    int rank = 0, number = 0, place = b.fox;
    for (int k = 0; k < SQUARES; k++)
        if (b.hounds >> k & 1) {
            rank += choose[k][++number];
            place -= k < b.fox;
        }
    return (rank * PLACES + place) * 2 + b.hounds_move;
}

static Board board_of(int index) {
    Board b = {sets[index / 2 / PLACES], 0, index % 2};
    int place = index / 2 % PLACES;
    while (b.hounds >> b.fox & 1 || place-- > 0) b.fox++;
    return b;
}

static int is_past(Board b) {
    for (int k = 0; k < SQUARES; k++)
        if (b.hounds >> k & 1 && row(k) < row(b.fox)) return 0;
    return 1;
}

// Writes the squares from and to which the moves lead, in the order of their numbers, and returns how many there are.
static int moves_of(Board b, int (*moves)[2]) {
    int count = 0;
    if (is_past(b)) return 0;
    for (int from = 0; from < SQUARES; from++) {
        if (b.hounds_move ? !(b.hounds >> from & 1) : from != b.fox) continue;
        // A hound has the last two ways: forwards.
        for (int way = b.hounds_move ? 2 : 0; way < 4; way++) {
            int to = beside(from, way < 2 ? -1 : 1, way % 2 ? 1 : -1);
            if (to < 0 || to == b.fox || b.hounds >> to & 1) continue;
            moves[count][0] = from;
            moves[count++][1] = to;
        }
    }
    return count;
}

static Board after(Board b, const int *move) {
    if (b.hounds_move)
        b.hounds = (b.hounds & ~(1u << move[0])) | 1u << move[1];
    else
        b.fox = move[1];
    b.hounds_move = !b.hounds_move;
    return b;
}

// How good a move to this position is: the soonest win first, and the latest loss last.
static int worth(int child) { return value[child] == LOSE ? 1000 - remoteness[child] : remoteness[child] - 1000; }

// Returns the position's number when it and what follows from it have been solved. Writes the place of its best move, of equal ones the first.
static int solve(Board b, int *best) {
    int index = index_of(b), moves[16][2], count = moves_of(b, moves), found = -1, place = -1;
    if (value[index] && !best) return index;
    for (int k = 0; k < count; k++) {
        int child = solve(after(b, moves[k]), NULL);
        if (found < 0 || worth(child) > worth(found)) found = child, place = k;
    }
    if (found < 0)
        value[index] = is_past(b) && !b.hounds_move ? WIN : LOSE;
    else {
        value[index] = value[found] == LOSE ? WIN : LOSE;
        remoteness[index] = remoteness[found] + 1;
    }
    if (best) *best = place;
    return index;
}

static void print_square(FILE *out, int square) { fprintf(out, "%c%c", 'a' + file(square), '1' + row(square)); }

static void print_row(FILE *out, Board b) {
    int moves[16][2], count = moves_of(b, moves), best, index = solve(b, &best);
    fprintf(out, "f");
    print_square(out, b.fox);
    for (int k = 0; k < SQUARES; k++)
        if (b.hounds >> k & 1) {
            fprintf(out, " h");
            print_square(out, k);
        }
    fprintf(out, " %c\t%s in %d\t", b.hounds_move ? 'h' : 'f', value[index] == WIN ? "win" : "lose", remoteness[index]);
    if (best >= 0) {
        print_square(out, moves[best][0]);
        fprintf(out, "-");
        print_square(out, moves[best][1]);
    }
    fprintf(out, "\t%d\n", count);
}

int main(int words, char **word) {
    for (int n = 0; n <= SQUARES; n++) {
        choose[n][0] = 1;
        for (int k = 1; k <= HOUNDS; k++) choose[n][k] = n ? choose[n - 1][k - 1] + choose[n - 1][k] : 0;
    }
    int next = 0;
    for (int d = 3; d < SQUARES; d++)
        for (int c = 2; c < d; c++)
            for (int b = 1; b < c; b++)
                for (int a = 0; a < b; a++) sets[next++] = 1u << a | 1u << b | 1u << c | 1u << d;
    FILE *wins = words == 3 ? fopen(word[1], "w") : NULL, *losses = words == 3 ? fopen(word[2], "w") : NULL;
    if (!wins || !losses) return 2;
    for (int index = 0; index < POSITIONS; index++) {
        Board b = board_of(index);
        if (solve(b, NULL) != index) return 1;
        print_row(value[index] == WIN ? wins : losses, b);
    }
    return fclose(wins) || fclose(losses);
}
