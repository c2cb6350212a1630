// Plain loops for the jobs of speed.py, one thread, a row at a time. usage: plain TASK < TABLE
// It prints what gta prints. build: g++ -O3 -march=native -std=c++17 -o plain plain.cpp
#include <algorithm>
#include <cstdint>
#include <iostream>
#include <string>
#include <vector>

using Number = std::int64_t;
using Count = std::uint64_t;

constexpr Number NONE = INT64_MIN / 2;

// The two columns of a table, behind its header.
struct Table {
    std::vector<Number> cost, gain;
};

static Table read() {
    Table table;
    std::string line;
    std::getline(std::cin, line);
    while (std::getline(std::cin, line)) {
        const auto comma = line.find(',');
        table.cost.push_back(std::stoll(line.substr(0, comma)));
        table.gain.push_back(std::stoll(line.substr(comma + 1)));
    }
    return table;
}

// The greatest gain of a choice that costs at most 1,000.
static void knapsack(const Table& t) {
    const Number most = 1000;
    std::vector<Number> best(most + 1, 0), next(most + 1);
    for (std::size_t row = 0; row < t.cost.size(); row++) {
        const Number cost = t.cost[row], gain = t.gain[row];
        if (cost > most) continue;
        std::copy(best.begin(), best.begin() + cost, next.begin());
        const Number* __restrict from = best.data();
        Number* __restrict into = next.data();
        for (Number c = cost; c <= most; c++) into[c] = std::max(from[c], from[c - cost] + gain);
        best.swap(next);
    }
    std::cout << "answer " << best[most] << "\n";
}

// How many choices have a cost that leaves 7 when divided by 1,000; 2^64 - 1 stands for more too.
static void ways(const Table& t) {
    const Number by = 1000;
    std::vector<Count> count(by, 0), next(by);
    count[0] = 1;
    const auto add = [](Count* __restrict into, const Count* __restrict a, const Count* __restrict b, Number n) {
        for (Number c = 0; c < n; c++) {
            const Count sum = a[c] + b[c];
            into[c] = sum < a[c] ? UINT64_MAX : sum;
        }
    };
    for (const Number cost : t.cost) {
        const Number step = cost % by;
        add(next.data(), count.data(), count.data() + (by - step), step);
        add(next.data() + step, count.data() + step, count.data(), by - step);
        count.swap(next);
    }
    std::cout << "answer " << count[7];
    if (count[7] == UINT64_MAX) std::cout << " or more";
    std::cout << "\n";
}

// The greatest gain of neighbouring rows.
static void segment(const Table& t) {
    Number best = 0, here = 0;
    for (const Number gain : t.gain) {
        here = std::max<Number>(here + gain, 0);
        best = std::max(best, here);
    }
    std::cout << "answer " << best << "\n";
}

// The neighbouring rows of the greatest gain, a number of them that 3 divides; of equal gains the fewest rows, and the first.
static void thirds(const Table& t) {
    Number before[3] = {0, NONE, NONE}, total = 0, best = 0;
    std::size_t since[3] = {0, 0, 0}, from = 0, to = 0;
    bool seen[3] = {true, false, false};
    for (std::size_t end = 1; end <= t.gain.size(); end++) {
        total += t.gain[end - 1];
        const std::size_t c = end % 3;
        if (seen[c]) {
            const Number gain = total - before[c];
            if (gain > best || (gain == best && end - since[c] < to - from)) best = gain, from = since[c], to = end;
        }
        if (!seen[c] || total <= before[c]) before[c] = total, since[c] = end, seen[c] = true;
    }
    std::cout << "answer 1\n1 " << best;
    if (from == to) std::cout << " -";
    for (std::size_t row = from; row < to; row++) std::cout << " " << row + 1;
    std::cout << "\n";
}

// The three choices of the greatest gain that cost at most 100, with their rows. Rows come from the last to the first, so that
// of two choices with one gain and one number of rows the one that takes the row now looked at is first.
struct Choice {
    Number gain;
    std::uint32_t rows, list;
};

struct Taken {
    std::uint32_t row, rest;
};

static bool is_first(const Choice& a, const Choice& b) {
    return a.gain != b.gain ? a.gain > b.gain : a.rows <= b.rows;
}

static void best(const Table& t) {
    const Number most = 100;
    const std::size_t k = 3;
    std::vector<std::vector<Choice>> held(most + 1, {{0, 0, 0}});
    std::vector<Taken> taken(1);
    std::vector<Choice> merged;
    for (std::size_t row = t.cost.size(); row-- > 0;) {
        const Number cost = t.cost[row], gain = t.gain[row];
        for (Number c = most; c >= cost; c--) {
            std::vector<Choice>& own = held[c];
            const std::vector<Choice>& other = held[c - cost];
            if (own.size() == k && other[0].gain + gain < own[k - 1].gain) continue;
            merged.clear();
            std::size_t i = 0, j = 0;
            while (merged.size() < k && (i < own.size() || j < other.size())) {
                const bool takes = j < other.size()
                    && (i == own.size() || is_first({other[j].gain + gain, other[j].rows + 1, 0}, own[i]));
                if (takes) {
                    taken.push_back({static_cast<std::uint32_t>(row), other[j].list});
                    merged.push_back({other[j].gain + gain, other[j].rows + 1, static_cast<std::uint32_t>(taken.size() - 1)});
                    j++;
                } else {
                    merged.push_back(own[i++]);
                }
            }
            own = merged;
        }
    }
    std::cout << "answer " << held[most].size() << "\n";
    for (std::size_t i = 0; i < held[most].size(); i++) {
        const Choice& choice = held[most][i];
        std::cout << i + 1 << " " << choice.gain;
        if (choice.rows == 0) std::cout << " -";
        for (std::uint32_t at = choice.list; at != 0; at = taken[at].rest) std::cout << " " << taken[at].row + 1;
        std::cout << "\n";
    }
}

// The greatest gain of a plan that works some days, by day or by night, at most 20 hours each, and never two nights in a row.
// A day shift gains what the row says, and a night shift twice that.
static void shifts(const Table& t) {
    const Number most = 20;
    const std::size_t side = most + 1;
    std::vector<Number> rested(side * side, NONE), tired(side * side, NONE), both(side * side), night(side * side);
    rested[0] = 0;
    for (std::size_t row = 0; row < t.cost.size(); row++) {
        const Number hours = t.cost[row], gain = t.gain[row];
        for (std::size_t i = 0; i < side * side; i++) both[i] = std::max(rested[i], tired[i]);
        std::fill(night.begin(), night.end(), NONE);
        for (Number d = 0; d <= most; d++)
            for (Number n = hours; n <= most; n++) night[d * side + n] = rested[d * side + n - hours] + 2 * gain;
        rested = both;
        for (Number d = hours; d <= most; d++) {
            Number* __restrict into = &rested[d * side];
            const Number* __restrict from = &both[(d - hours) * side];
            for (Number n = 0; n <= most; n++) into[n] = std::max(into[n], from[n] + gain);
        }
        tired.swap(night);
    }
    Number answer = NONE;
    for (std::size_t i = 0; i < side * side; i++) answer = std::max({answer, rested[i], tired[i]});
    std::cout << "answer " << answer << "\n";
}

int main(int count, char** words) {
    const std::string task = count > 1 ? words[1] : "";
    std::ios::sync_with_stdio(false);
    const Table table = read();
    if (task == "knapsack") knapsack(table);
    else if (task == "ways") ways(table);
    else if (task == "segment") segment(table);
    else if (task == "thirds") thirds(table);
    else if (task == "best") best(table);
    else if (task == "shifts") shifts(table);
    else return 2;
}
