// Small games of placing, of sliding and taking and of dominoes by their rules, as docs/GAMES.md states them; nothing here was taken from the program.
// Boards are texts of x (to move), o and '.'.
#pragma once
#include <algorithm>
#include <cstdint>
#include <cstdlib>
#include <memory>
#include <string>
#include <vector>
using namespace std;
typedef string B;
struct Move { string name; B child; };
enum Value : uint8_t { NONE, LOSE, TIE, WIN, DRAW };

string cell(int k, int columns) { return string(1, char('a' + k / columns)) + char('1' + k % columns); }
string two(int a, int c, int columns) { return cell(a, columns) + "-" + cell(c, columns); }
B swapped(B b) { for (char &c : b) c = c == 'x' ? 'o' : c == 'o' ? 'x' : c; return b; }
int count_of(const B &b, char c) { return int(count(b.begin(), b.end(), c)); }
bool is_by_turns(const B &b) { int d = count_of(b, 'o') - count_of(b, 'x'); return d == 0 || d == 1; }

struct Game {
    int cells;
    virtual ~Game() = default;
    // how many things can lie on a cell, the free cell among them: two where the pieces are common
    virtual int kinds() { return 3; }
    // whether play can come back to a board
    virtual bool cycles() { return false; }
    virtual bool legal(const B &b) = 0;
    virtual Value end(const B &b) = 0;  // how the last move has ended the game
    virtual vector<Move> moves(const B &b) = 0;
    virtual B start() = 0;
    virtual Value stuck() { return LOSE; }
    // whether a legal board is in a tier that play does not reach
    virtual bool left_out(const B &) { return false; }
};

struct Square : Game {
    int s;
    Square(int side) : s(side) { cells = s * s; }
    B start() override { return B(cells, '.'); }
    // a straight line of s pieces, found by walking from each cell
    bool has_line(const B &b, char who, bool diagonals) {
        for (int r = 0; r < s; r++)
            for (int c = 0; c < s; c++)
                for (auto [dr, dc] : {pair{0, 1}, pair{1, 0}, pair{1, 1}, pair{1, -1}}) {
                    if (dr && dc && !diagonals) continue;
                    int n = 0;
                    for (int y = r, x = c; y < s && x < s && x >= 0 && b[y * s + x] == who; y += dr, x += dc) n++;
                    if (n == s) return true;
                }
        return false;
    }
};

struct Rows : Square {
    bool misere;
    Rows(int side, bool m) : Square(side), misere(m) {}
    bool legal(const B &b) override { return is_by_turns(b) && !has_line(b, 'x', true); }
    Value end(const B &b) override { return has_line(b, 'o', true) ? (misere ? WIN : LOSE) : NONE; }
    Value stuck() override { return TIE; }
    vector<Move> moves(const B &b) override {
        vector<Move> ms;
        for (int k = 0; k < cells; k++) if (b[k] == '.') { B d = b; d[k] = 'x'; ms.push_back({cell(k, s), swapped(d)}); }
        return ms;
    }
};

struct Nine : Square {
    int all; bool diagonals, eight;
    Nine(int a, bool d, bool e = false) : Square(3), all(a), diagonals(d), eight(e) {}
    bool cycles() override { return true; }
    bool legal(const B &b) override { return is_by_turns(b) && count_of(b, 'x') + count_of(b, 'o') <= all && !has_line(b, 'x', diagonals); }
    Value end(const B &b) override { return has_line(b, 'o', diagonals) ? LOSE : NONE; }
    vector<Move> moves(const B &b) override {
        vector<Move> ms;
        bool placing = count_of(b, 'x') + count_of(b, 'o') < all;
        for (int k = 0; k < 9; k++) {
            if (placing) { if (b[k] == '.') { B d = b; d[k] = 'x'; ms.push_back({cell(k, 3), swapped(d)}); } continue; }
            if (b[k] != 'x') continue;
            for (int t = 0; t < 9; t++) {
                int dr = abs(k / 3 - t / 3), dc = abs(k % 3 - t % 3);
                // Achi's lines: the sides, the middle lines and the diagonals of the square, so that diagonals meet only in the center
                bool joined = dr + dc == 1 || (diagonals && dr == 1 && dc == 1 && (eight || k == 4 || t == 4));
                if (joined && b[t] == '.') { B d = b; d[k] = '.'; d[t] = 'x'; ms.push_back({two(k, t, 3), swapped(d)}); }
            }
        }
        return ms;
    }
};

struct Hexapawn : Square {
    Hexapawn(int side) : Square(side) {}
    bool left_out(const B &b) override { return b == B(cells, '.'); }
    B start() override { return B(s, 'o') + B(s * (s - 2), '.') + B(s, 'x'); }
    bool legal(const B &b) override { return count_of(b, 'x') <= s && count_of(b, 'o') <= s && b.substr(0, s).find('x') == B::npos; }
    Value end(const B &b) override { return b.substr(cells - s).find('o') != B::npos ? LOSE : NONE; }
    vector<Move> moves(const B &b) override {
        vector<Move> ms;
        for (int r = 1; r < s; r++)
            for (int c = 0; c < s; c++) if (b[r * s + c] == 'x')
                for (int d = -1; d <= 1; d++) {
                    if (c + d < 0 || c + d >= s) continue;
                    int t = (r - 1) * s + c + d;
                    if (b[t] == (d ? 'o' : '.')) {
                        B n = b; n[r * s + c] = '.'; n[t] = 'x'; reverse(n.begin(), n.end());
                        ms.push_back({two(r * s + c, t, s), swapped(n)});
                    }
                }
        return ms;
    }
};

struct Domineering : Square {
    bool both;
    Domineering(int side, bool cram) : Square(side), both(cram) {}
    int kinds() override { return 2; }
    bool legal(const B &b) override { return count_of(b, 'x') % 2 == 0; }
    Value end(const B &) override { return NONE; }
    vector<Move> moves(const B &b) override {
        vector<Move> ms;
        bool upright = count_of(b, 'x') / 2 % 2 == 0;
        for (int r = 0; r < s; r++)
            for (int c = 0; c < s; c++) {
                for (int flat = 0; flat < 2; flat++) {
                    if (!both && bool(flat) == upright) continue;
                    int y = r + !flat, x = c + flat;
                    if (y >= s || x >= s || b[r * s + c] != '.' || b[y * s + x] != '.') continue;
                    B d = b; d[r * s + c] = d[y * s + x] = 'x';
                    ms.push_back({two(r * s + c, y * s + x, s), d});
                }
            }
        return ms;
    }
};

struct Notakto : Square {
    Notakto() : Square(3) {}
    int kinds() override { return 2; }
    bool legal(const B &) override { return true; }
    Value end(const B &b) override { return has_line(b, 'x', true) ? WIN : NONE; }
    vector<Move> moves(const B &b) override {
        vector<Move> ms;
        for (int k = 0; k < cells; k++) if (b[k] == '.') { B d = b; d[k] = 'x'; ms.push_back({cell(k, s), d}); }
        return ms;
    }
};

struct Toads : Game {
    Toads() { cells = 11; }
    B start() override { return "xxxx...oooo"; }
    bool legal(const B &b) override { return count_of(b, 'x') == 4 && count_of(b, 'o') == 4; }
    Value end(const B &) override { return NONE; }
    vector<Move> moves(const B &b) override {
        vector<Move> ms;
        for (int k = 0; k < 11; k++) if (b[k] == 'x') {
            int t = k + 1;
            if (t < 11 && b[t] == 'o') t++;
            if (t > 10 || b[t] != '.') continue;
            B n = b; n[k] = '.'; n[t] = 'x'; reverse(n.begin(), n.end());
            ms.push_back({string(1, char(97 + k)) + "-" + char(97 + t), swapped(n)});
        }
        return ms;
    }
};

struct Clobber : Square {
    Clobber() : Square(4) {}
    bool left_out(const B &b) override { return b == B(cells, '.'); }
    B start() override { B b(16, '.'); for (int k = 0; k < 16; k++) b[k] = (k / 4 + k % 4) % 2 ? 'o' : 'x'; return b; }
    bool legal(const B &b) override { return is_by_turns(b); }
    Value end(const B &) override { return NONE; }
    vector<Move> moves(const B &b) override {
        vector<Move> ms;
        for (int k = 0; k < 16; k++) for (int t = 0; t < 16; t++)
            if (b[k] == 'x' && b[t] == 'o' && abs(k / 4 - t / 4) + abs(k % 4 - t % 4) == 1) {
                B d = b; d[k] = '.'; d[t] = 'x'; ms.push_back({two(k, t, 4), swapped(d)});
            }
        return ms;
    }
};

struct Hex : Square {
    Hex(int side) : Square(side) {}
    // whether the pieces of one kind join the first row to the last, or the first column to the last: a fill from one side
    bool joins(const B &b, char who, bool columns) {
        vector<int> todo; vector<bool> seen(cells);
        for (int k = 0; k < s; k++) { int c = columns ? k * s : k; if (b[c] == who) { todo.push_back(c); seen[c] = true; } }
        while (!todo.empty()) {
            int k = todo.back(), r = k / s, c = k % s; todo.pop_back();
            if ((columns ? c : r) == s - 1) return true;
            for (auto [dr, dc] : {pair{0, 1}, pair{0, -1}, pair{1, 0}, pair{-1, 0}, pair{-1, 1}, pair{1, -1}}) {
                int y = r + dr, x = c + dc;
                if (y < 0 || x < 0 || y >= s || x >= s) continue;
                if (b[y * s + x] == who && !seen[y * s + x]) { seen[y * s + x] = true; todo.push_back(y * s + x); }
            }
        }
        return false;
    }
    bool legal(const B &b) override { return is_by_turns(b) && !joins(b, 'x', false); }
    Value end(const B &b) override { return joins(b, 'o', true) ? LOSE : NONE; }
    vector<Move> moves(const B &b) override {
        vector<Move> ms;
        for (int k = 0; k < cells; k++) if (b[k] == '.') {
            B d = b, t(cells, '.'); d[k] = 'x';
            for (int r = 0; r < s; r++) for (int c = 0; c < s; c++) t[c * s + r] = d[r * s + c];
            ms.push_back({cell(k, s), swapped(t)});
        }
        return ms;
    }
};

struct Kayles : Game {
    Kayles() { cells = 12; }
    int kinds() override { return 2; }
    B start() override { return B(12, 'x'); }
    bool legal(const B &) override { return true; }
    Value end(const B &) override { return NONE; }
    vector<Move> moves(const B &b) override {
        vector<Move> ms;
        for (int k = 0; k < 12; k++) if (b[k] == 'x') { B d = b; d[k] = '.'; ms.push_back({string(1, char('a' + k)), d}); }
        for (int k = 0; k < 11; k++) if (b[k] == 'x' && b[k + 1] == 'x') {
            B d = b; d[k] = d[k + 1] = '.';
            ms.push_back({string(1, char('a' + k)) + "-" + char('a' + k + 1), d});
        }
        return ms;
    }
};

struct Sim : Game {
    vector<pair<int, int>> lines;
    Sim() { for (int a = 1; a <= 6; a++) for (int b = a + 1; b <= 6; b++) lines.push_back({a, b}); cells = 15; }
    B start() override { return B(15, '.'); }
    string name(int k) { return to_string(lines[k].first) + to_string(lines[k].second); }
    bool joined(const B &b, char who, int p, int q) { return b[find(lines.begin(), lines.end(), pair{p, q}) - lines.begin()] == who; }
    bool triangle(const B &b, char who) {
        for (int p = 1; p <= 6; p++)
            for (int q = p + 1; q <= 6; q++)
                for (int r = q + 1; r <= 6; r++)
                    if (joined(b, who, p, q) && joined(b, who, p, r) && joined(b, who, q, r)) return true;
        return false;
    }
    bool legal(const B &b) override { return is_by_turns(b) && !triangle(b, 'x'); }
    Value end(const B &b) override { return triangle(b, 'o') ? WIN : NONE; }
    Value stuck() override { return TIE; }
    vector<Move> moves(const B &b) override {
        vector<Move> ms;
        for (int k = 0; k < 15; k++) if (b[k] == '.') { B d = b; d[k] = 'x'; ms.push_back({name(k), swapped(d)}); }
        return ms;
    }
};

template <class G, auto... args> unique_ptr<Game> made() { return make_unique<G>(args...); }

// (the first three are games of other crates, with which this solver can be compared with the one in games.py)
const struct { const char *name; unique_ptr<Game> (*make)(); } GAMES[] = {
    {"tictactoe", made<Rows, 3, false>},
    {"threemens", made<Nine, 6, false>},
    {"achi", made<Nine, 8, true>},
    {"tictactoe-misere", made<Rows, 3, true>},
    {"tictactoe-4", made<Rows, 4, false>},
    {"notakto", made<Notakto>},
    {"hex-3", made<Hex, 3>},
    {"hex-4", made<Hex, 4>},
    {"sim", made<Sim>},
    {"hexapawn", made<Hexapawn, 3>},
    {"hexapawn-4", made<Hexapawn, 4>},
    {"nineholes", made<Nine, 6, false>},
    {"picaria", made<Nine, 6, true, true>},
    {"clobber", made<Clobber>},
    {"toads", made<Toads>},
    {"domineering-4", made<Domineering, 4, false>},
    {"domineering-5", made<Domineering, 5, false>},
    {"cram-4", made<Domineering, 4, true>},
    {"cram-5", made<Domineering, 5, true>},
    {"kayles", made<Kayles>},
};
