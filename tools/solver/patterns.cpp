// The values of all legal positions of the games of patterns.hpp, over raw boards, without symmetry or tiers.
//   patterns GAME          prints how many boards are legal, how many play reaches, and the start's value
//   patterns GAME print    prints a line for each legal board of the tiers that play reaches: text, value, remoteness, moves
//   patterns GAME sum      prints how many legal boards there are in tiers that play reaches, and a sum of their lines
//   patterns GAME check    reads such lines and prints how many agree
// Build: g++ -O2 -std=c++20 -o patterns patterns.cpp
#include "patterns.hpp"
#include <cstdio>
#include <iostream>
#include <set>
#include <sstream>

const char *WORD[] = {"none", "lose", "tie", "win", "draw"};

// ---- values
unique_ptr<Game> g;
vector<uint8_t> value_of, remoteness_of, legal;

size_t code(const B &b) { size_t n = 0; for (char c : b) n = g->kinds() * n + (c == 'x' ? 1 : c == 'o' ? 2 : 0); return n; }
B board(size_t n) { B b(g->cells, '.'); for (int k = g->cells - 1; k >= 0; k--, n /= g->kinds()) b[k] = ".xo"[n % g->kinds()]; return b; }

vector<Move> moves_of(const B &b) { return g->end(b) == NONE ? g->moves(b) : vector<Move>(); }

vector<size_t> children_of(const B &b) {
    vector<size_t> found;
    for (const Move &m : g->moves(b)) found.push_back(code(m.child));
    return found;
}

// by the children's values: the best value, and the fewest moves to a win or a tie, the most to a loss
bool by_children(const vector<size_t> &children, uint8_t &v, uint8_t &r) {
    bool unknown = false; int lose = 999, tie = 999, win = -1;
    for (size_t c : children) switch (value_of[c]) {
        case LOSE: lose = min(lose, int(remoteness_of[c])); break;
        case TIE: tie = min(tie, int(remoteness_of[c])); break;
        case WIN: win = max(win, int(remoteness_of[c])); break;
        default: unknown = true;
    }
    if (lose < 999) { v = WIN; r = lose + 1; return true; }
    if (unknown) return false;
    if (tie < 999) { v = TIE; r = tie + 1; return true; }
    v = LOSE; r = win + 1; return true;
}

// the value of a board that has ended, if it has
bool ended(const B &b, size_t c, const vector<size_t> &children) {
    Value e = g->end(b);
    if (e == NONE && children.empty()) e = g->stuck();
    value_of[c] = e;
    return e != NONE;
}

// a game without cycles: the children first
void solve(size_t c) {
    if (value_of[c] != NONE) return;
    B b = board(c);
    vector<size_t> children = children_of(b);
    if (ended(b, c, children)) return;
    for (size_t d : children) solve(d);
    by_children(children, value_of[c], remoteness_of[c]);
}

// a game with cycles, in rounds: in each round the positions whose value is settled by positions of rounds before it. What is left is a draw
void solve_in_rounds() {
    vector<size_t> left;
    vector<vector<size_t>> children(legal.size());
    for (size_t c = 0; c < legal.size(); c++) if (legal[c]) {
        children[c] = children_of(board(c));
        if (!ended(board(c), c, children[c])) left.push_back(c);
    }
    for (bool more = true; more;) {
        vector<size_t> rest;
        vector<pair<size_t, pair<uint8_t, uint8_t>>> found;
        for (size_t c : left) {
            uint8_t v, r;
            if (by_children(children[c], v, r)) found.push_back({c, {v, r}}); else rest.push_back(c);
        }
        for (auto &[c, it] : found) { value_of[c] = it.first; remoteness_of[c] = it.second; }
        more = !found.empty();
        left = rest;
    }
    for (size_t c : left) value_of[c] = DRAW;
}

void solve_all() {
    size_t all = 1;
    for (int k = 0; k < g->cells; k++) all *= g->kinds();
    value_of.assign(all, NONE); remoteness_of.assign(all, 0); legal.assign(all, 0);
    for (size_t c = 0; c < all; c++) legal[c] = g->legal(board(c));
    if (g->cycles()) return solve_in_rounds();
    for (size_t c = 0; c < all; c++) if (legal[c]) solve(c);
}

// ---- what is printed
int print_counts(const string &name) {
    vector<uint8_t> seen(legal.size()); vector<size_t> todo{code(g->start())};
    size_t start = todo[0], reached = 0, counts[5] = {};
    for (seen[start] = 1; !todo.empty();) {
        size_t c = todo.back(); todo.pop_back(); reached++; counts[value_of[c]]++;
        if (!legal[c]) { printf("reached, not legal: %s\n", board(c).c_str()); return 1; }
        for (const Move &m : moves_of(board(c))) { size_t d = code(m.child); if (!seen[d]) { seen[d] = 1; todo.push_back(d); } }
    }
    printf("%s: %zu legal, %zu reached (%zu lose, %zu tie, %zu win, %zu draw), start %s in %d\n", name.c_str(), size_t(count(legal.begin(), legal.end(), 1)),
           reached, counts[LOSE], counts[TIE], counts[WIN], counts[DRAW], WORD[value_of[start]], remoteness_of[start]);
    return 0;
}

void print_lines() {
    for (size_t c = 0; c < legal.size(); c++) if (legal[c] && !g->left_out(board(c))) {
        B b = board(c); printf("%s %s %d", b.c_str(), WORD[value_of[c]], remoteness_of[c]);
        for (const Move &m : moves_of(b)) printf(" %s", m.name.c_str());
        printf("\n");
    }
}

// FNV-1a of text and value, and of that and each move's name, added up: the same whatever the order
void print_sum(const string &name) {
    auto hashed = [](uint64_t h, const string &t) { for (unsigned char c : t) h = (h ^ c) * 0x100000001b3ull; return h; };
    uint64_t sum = 0, positions = 0;
    for (size_t c = 0; c < legal.size(); c++) if (legal[c] && !g->left_out(board(c))) {
        B b = board(c);
        uint64_t line = hashed(hashed(0xcbf29ce484222325ull, b) ^ remoteness_of[c], WORD[value_of[c]]);
        sum += line; positions++;
        for (const Move &m : moves_of(b)) sum += hashed(line, m.name);
    }
    printf("%s: %llu positions, sum %llu\n", name.c_str(), (unsigned long long)positions, (unsigned long long)sum);
}

// whether a line with this text tells what is found here: the value, the remoteness and the moves in any order
bool agrees(const B &text, const string &value, int remoteness, vector<string> moves) {
    size_t c = code(text);
    vector<string> own;
    for (const Move &m : moves_of(text)) own.push_back(m.name);
    sort(moves.begin(), moves.end()); sort(own.begin(), own.end());
    return legal[c] && value == WORD[value_of[c]] && (value_of[c] == DRAW || remoteness == remoteness_of[c]) && moves == own;
}

int check_lines(const string &name) {
    size_t agree = 0, differ = 0, twice = 0, other = 0, missing = 0;
    vector<uint8_t> seen(legal.size());
    for (string line; getline(cin, line);) {
        istringstream in(line); B text; string value, move; int remoteness; vector<string> moves;
        bool is_line = in >> text >> value >> remoteness && int(text.size()) == g->cells;
        is_line = is_line && text.find_first_not_of(g->kinds() == 2 ? ".x" : ".xo") == string::npos;
        while (in >> move) moves.push_back(move);
        if (!is_line) { other++; continue; }
        twice += seen[code(text)]; seen[code(text)] = 1;
        if (agrees(text, value, remoteness, moves)) agree++; else if (differ++ < 3) printf("differs: %s\n", line.c_str());
    }
    set<pair<int, int>> numbers;
    for (size_t c = 0; c < legal.size(); c++) if (legal[c] && !seen[c]) { missing++; numbers.insert({count_of(board(c), 'x'), count_of(board(c), 'o')}); }
    printf("%s: %zu agree, %zu differ, %zu read twice, %zu other lines; legal and not read %zu", name.c_str(), agree, differ, twice, other, missing);
    for (auto &[mine, theirs] : numbers) printf(" (%d,%d)", mine, theirs);
    printf("\n");
    return differ || twice || other;
}

int main(int argc, char **argv) {
    string name = argc > 1 ? argv[1] : "", mode = argc > 2 ? argv[2] : "";
    for (auto &it : GAMES) if (name == it.name) g = it.make();
    if (!g) { fprintf(stderr, "patterns: no game %s\n", name.c_str()); return 2; }
    solve_all();
    if (mode == "print") print_lines();
    else if (mode == "sum") print_sum(name);
    else if (mode == "check") return check_lines(name);
    else return print_counts(name);
    return 0;
}
