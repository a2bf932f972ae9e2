// Four Field Kono by its rules, as docs/GAMES.md states them; nothing here was taken from the program. All positions are solved backwards from the ends.
//   kono      prints how many positions play reaches, how many of them are won, lost and drawn, and the greatest remotenesses
// Build: g++ -O2 -std=c++20 -o kono kono.cpp
#include <bit>
#include <cstdint>
#include <cstdio>
#include <vector>
using std::popcount;
typedef uint32_t Mask;
struct Board { Mask mine, theirs; };
enum Value : uint8_t { OPEN, LOSE, WIN };

static std::vector<size_t> first(1 << 16);  // where the boards with these men of the mover's begin
static std::vector<uint8_t> value, remoteness, left;
static Mask beside[16], behind[16];  // cells one and two away in a row or a column
static int between[16][16];

// The number of a board: its opponents are numbered among the cells without the mover's men.
static size_t number_of(Board b) {
    size_t place = 0, bit = 1;
    for (Mask free = ~b.mine & 0xffff; free; free &= free - 1, bit <<= 1) if (b.theirs & free & -free) place |= bit;
    return first[b.mine] + place;
}

static bool is_legal(Board b) {
    int mine = popcount(b.mine), theirs = popcount(b.theirs);
    return 1 <= mine && mine <= 8 && 2 <= theirs && theirs <= 8;
}

template <class Each> static void for_cells(Mask cells, Each each) { for (; cells; cells &= cells - 1) each(std::countr_zero(cells)); }

// The boards after each move, as the other player sees them.
template <class Each> static void for_moves(Board b, Each each) {
    Mask free = ~(b.mine | b.theirs) & 0xffff;
    for_cells(b.mine, [&](int from) {
        for_cells(beside[from] & free, [&](int to) { each(Board{b.theirs, b.mine ^ 1u << from ^ 1u << to}); });
        for_cells(behind[from] & b.theirs, [&](int to) {
            if (b.mine >> between[from][to] & 1) each(Board{b.theirs ^ 1u << to, b.mine ^ 1u << from ^ 1u << to});
        });
    });
}

// The boards before each move that may have led here, as the player who made it saw them; he had two men.
template <class Each> static void for_earlier(Board b, Each each) {
    Mask free = ~(b.mine | b.theirs) & 0xffff;
    auto tell = [&](Board before) { if (is_legal(before) && popcount(before.mine) >= 2) each(before); };
    for_cells(b.theirs, [&](int to) {
        for_cells(beside[to] & free, [&](int from) { tell({b.theirs ^ 1u << from ^ 1u << to, b.mine}); });
        for_cells(behind[to] & free, [&](int from) {
            if (b.theirs >> between[from][to] & 1) tell({b.theirs ^ 1u << from ^ 1u << to, b.mine | 1u << to});
        });
    });
}

static void settle(Board b, Value v, int r, std::vector<Board> &level) {
    size_t k = number_of(b);
    value[k] = v; remoteness[k] = uint8_t(r); level.push_back(b);
}

static void set_lines() {
    for (int a = 0; a < 16; a++) for (int c = 0; c < 16; c++) {
        int rows = a / 4 > c / 4 ? a / 4 - c / 4 : c / 4 - a / 4, columns = a % 4 > c % 4 ? a % 4 - c % 4 : c % 4 - a % 4;
        if (rows && columns) continue;
        if (rows + columns == 1) beside[a] |= 1u << c;
        if (rows + columns == 2) { behind[a] |= 1u << c; between[a][c] = (a + c) / 2; }
    }
}

// Settles the boards that are over, which are losses, and counts the moves of the others.
static std::vector<Board> settle_ends() {
    size_t all = 0;
    for (Mask mine = 0; mine < 1 << 16; mine++) { first[mine] = all; all += size_t(1) << (16 - popcount(mine)); }
    value.resize(all); remoteness.resize(all); left.resize(all);
    std::vector<Board> level;
    for (Mask mine = 0; mine < 1 << 16; mine++) for (Mask theirs = ~mine & 0xffff;; theirs = (theirs - 1) & ~mine & 0xffff) {
        Board b{mine, theirs};
        if (is_legal(b)) {
            int moves = 0;
            for_moves(b, [&](Board) { moves++; });
            if (popcount(mine) < 2 || !moves) settle(b, LOSE, 0, level); else left[number_of(b)] = uint8_t(moves);
        }
        if (!theirs) break;
    }
    return level;
}

// Settles level after level what the one before it decides. What is left is a draw.
static void solve() {
    std::vector<Board> level = settle_ends(), next;
    for (int r = 1; !level.empty(); r++, level.swap(next), next.clear())
        for (Board b : level) {
            Value v = Value(value[number_of(b)]);
            for_earlier(b, [&](Board before) {
                size_t k = number_of(before);
                if (value[k] != OPEN) return;
                if (v == LOSE) settle(before, WIN, r, next); else if (!--left[k]) settle(before, LOSE, r, next);
            });
        }
}

int main() {
    set_lines();
    solve();
    std::vector<bool> seen(value.size());
    size_t counts[3] = {}; int longest[3] = {};
    const Board start{0xff00, 0x00ff};
    std::vector<Board> level = {start}; seen[number_of(start)] = true;
    while (!level.empty()) {
        Board b = level.back(); level.pop_back();
        size_t k = number_of(b);
        counts[value[k]]++;
        if (remoteness[k] > longest[value[k]]) longest[value[k]] = remoteness[k];
        if (popcount(b.mine) < 2) continue;
        for_moves(b, [&](Board c) { size_t j = number_of(c); if (!seen[j]) { seen[j] = true; level.push_back(c); } });
    }
    const char *words[] = {"draw", "lose", "win"};
    size_t k = number_of(start);
    printf("kono: %zu reached: %zu draw, %zu win in up to %d, %zu lose in up to %d; the start is %s in %d\n",
           counts[OPEN] + counts[WIN] + counts[LOSE], counts[OPEN], counts[WIN], longest[WIN], counts[LOSE], longest[LOSE], words[value[k]], remoteness[k]);
}
