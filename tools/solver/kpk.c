// King and pawn against king, solved by the words of its rules only (docs/GAMES.md). kpk: writes the rows of the positions with the white king on the left half
// to standard output, as `find` prints them: the text of a position, its value, its best move and how many moves it has. What it counts, of all legal positions,
// goes to standard error. All placements of the men are solved, without symmetry, by going over them once for each number of moves: first those that are won and
// lost, then those that are ties; the others are drawn.
#include <stdio.h>
#include <stdlib.h>

enum { NONE, QUEEN, ROOK, BISHOP, KNIGHT, PAWN, KINDS };
enum { UNKNOWN, LOSE, TIE, WIN, DEEPEST = 40 };

typedef struct {
    int kind, black, king, man, foe; // White's man, whether Black is to move, and the squares: 8 times the row plus the file
} Board;

typedef struct {
    Board to;
    char letter; // that of the man that goes, or which the pawn becomes
    int from, square;
} Move;

static const char letters[] = ".QRBNP", *const words[] = {"draw", "lose", "tie", "win"};
static unsigned char value[KINDS << 19], depth[KINDS << 19];

static int place(Board b) { return (((b.kind * 2 + b.black) * 64 + b.king) * 64 + (b.kind ? b.man : 0)) * 64 + b.foe; }

static int row(int square) { return square / 8; }
static int file(int square) { return square % 8; }
static int apart(int a, int b) {
    int rows = abs(row(a) - row(b)), files = abs(file(a) - file(b));
    return rows > files ? rows : files;
}

// Returns whether White's man attacks a square, with kings as obstacles on two others. A bishop and a knight never come to that.
static int man_attacks(int kind, int man, int to, int one, int other) {
    int up = row(to) - row(man), right = file(to) - file(man), steps = apart(man, to);
    if (kind == PAWN) return up == 1 && abs(right) == 1;
    if ((kind != QUEEN && kind != ROOK) || !steps) return 0;
    if (up && right && (kind == ROOK || abs(up) != abs(right))) return 0;
    for (int k = 1; k < steps; k++) {
        int square = man + k * (8 * (up > 0) - 8 * (up < 0) + (right > 0) - (right < 0));
        if (square == one || square == other) return 0;
    }
    return 1;
}

static int in_check(Board b) { return b.kind && man_attacks(b.kind, b.man, b.foe, b.king, b.king); }

static int is_legal(Board b) {
    if (apart(b.king, b.foe) < 2) return 0;
    if (b.kind == NONE) return !b.black && b.man == 0;
    if (b.man == b.king || b.man == b.foe) return 0;
    if (b.kind == BISHOP || b.kind == KNIGHT) return b.black && row(b.man) == 7;
    if (b.kind == PAWN && (row(b.man) == 0 || row(b.man) == 7)) return 0;
    return b.black || !in_check(b);
}

static void add(Move *moves, int *count, Board to, char letter, int from, int square) {
    to.black = !to.black;
    moves[(*count)++] = (Move){to, letter, from, square};
}

static void add_man(Move *moves, int *count, Board b, int to) {
    Board after = b;
    after.man = to;
    if (b.kind == PAWN && row(to) == 7)
        for (int kind = QUEEN; kind <= KNIGHT; kind++) {
            after.kind = kind;
            add(moves, count, after, letters[kind], b.man, to);
        }
    else
        add(moves, count, after, letters[b.kind], b.man, to);
}

// Writes the moves by their numbers and returns how many there are.
static int moves_of(Board b, Move *moves) {
    int count = 0;
    if (b.kind == NONE || b.kind == BISHOP || b.kind == KNIGHT) return 0;
    if (b.black) {
        for (int to = 0; to < 64; to++) {
            Board after = b;
            if (apart(b.foe, to) != 1 || apart(to, b.king) < 2) continue;
            if (to != b.man && man_attacks(b.kind, b.man, to, b.king, b.king)) continue;
            after.foe = to;
            if (to == b.man) after.kind = NONE, after.man = 0;
            add(moves, &count, after, 'k', b.foe, to);
        }
        return count;
    }
    for (int to = 0; to < 64; to++) {
        Board after = b;
        if (apart(b.king, to) != 1 || to == b.man || apart(to, b.foe) < 2) continue;
        after.king = to;
        add(moves, &count, after, 'K', b.king, to);
    }
    if (b.kind == PAWN) {
        int one = b.man + 8, two = b.man + 16;
        if (one != b.king && one != b.foe) {
            add_man(moves, &count, b, one);
            if (row(b.man) == 1 && two != b.king && two != b.foe) add_man(moves, &count, b, two);
        }
        return count;
    }
    for (int to = 0; to < 64; to++)
        if (to != b.king && to != b.foe && man_attacks(b.kind, b.man, to, b.king, b.foe)) add_man(moves, &count, b, to);
    return count;
}

// How good a move to this position is: a lost one the soonest, a tie the soonest, nothing known, then a won one the latest.
static int worth(Board to) {
    int d = depth[place(to)];
    switch (value[place(to)]) {
    case LOSE: return 3000 - d;
    case TIE: return 1000 - d;
    case WIN: return d - 3000;
    default: return 0;
    }
}

// Finds out whether a position is won or lost in so many moves, or, when all of these are known, whether it is a tie in so many. Returns 1 if it is.
static int is_settled(Board b, int ply, int ties) {
    Move moves[64];
    int p = place(b), wanted = ties ? TIE : b.black ? LOSE : WIN, count = value[p] ? 0 : moves_of(b, moves), lost = 0, tied = 0, known = 1;
    if (value[p]) return 0;
    for (int k = 0; k < count; k++) {
        int to = place(moves[k].to), v = depth[to] < ply ? value[to] : UNKNOWN;
        lost |= v == LOSE;
        tied |= v == TIE;
        known &= v == WIN;
    }
    if (count == 0 ? ply || ties != !(b.black && in_check(b)) : ties ? !tied : !(wanted == WIN ? lost : known)) return 0;
    value[p] = wanted;
    depth[p] = ply;
    return 1;
}

// Calls a function for each legal position with a kind of man, by index, and returns how often it returned 1.
static long each(int kind, int (*visit)(Board, int, int), int ply, int ties) {
    long found = 0;
    for (int black = 0; black < 2; black++)
        for (int king = 0; king < 64; king++)
            for (int man = 0; man < (kind ? 64 : 1); man++)
                for (int foe = 0; foe < 64; foe++) {
                    Board b = {kind, black, king, man, foe};
                    if (is_legal(b)) found += visit(b, ply, ties);
                }
    return found;
}

// Solves the positions with a kind of man, when those to which they lead are solved. White can't lose, and Black can't win.
static void solve(int kind) {
    for (int ties = 0; ties < 2; ties++)
        for (int ply = 0, idle = 0; ply < DEEPEST || idle < 3; ply++) idle = each(kind, is_settled, ply, ties) ? 0 : idle + 1;
}

static long counts[KINDS][2][4];
static int longest[KINDS];

static void print_square(int square) { printf("%c%d", 'a' + file(square), row(square) + 1); }

static int print_row(Board b, int ply, int ties) {
    (void)ply, (void)ties;
    Move moves[64];
    int count = moves_of(b, moves), p = place(b), best = 0;
    for (int k = 1; k < count; k++)
        if (worth(moves[k].to) > worth(moves[best].to)) best = k;
    counts[b.kind][b.black][value[p]]++;
    if (value[p] == WIN && depth[p] > longest[b.kind]) longest[b.kind] = depth[p];
    if (file(b.king) >= 4) return 0;
    printf("K");
    print_square(b.king);
    if (b.kind) {
        printf(" %c", letters[b.kind]);
        print_square(b.man);
    }
    printf(" k");
    print_square(b.foe);
    printf(" %c\t%s", b.black ? 'b' : 'w', words[value[p]]);
    if (value[p]) printf(" in %d", depth[p]);
    printf("\t");
    if (count) {
        printf("%c", moves[best].letter);
        print_square(moves[best].from);
        printf("-");
        print_square(moves[best].square);
    }
    printf("\t%d\n", count);
    return 1;
}

int main(void) {
    for (int kind = 0; kind < KINDS; kind++) {
        solve(kind);
        each(kind, print_row, 0, 0);
        for (int black = 0; black < 2; black++) {
            long *n = counts[kind][black];
            fprintf(stderr, "%c %c: %ld legal, %ld won, %ld lost, %ld tied, %ld drawn; the longest win takes %d\n", letters[kind], black ? 'b' : 'w',
                    n[0] + n[1] + n[2] + n[3], n[WIN], n[LOSE], n[TIE], n[0], longest[kind]);
        }
    }
    return 0;
}
