// The same planner from C++: every model file named is planned on a thread of its own, with buffers of its own.
#include "repgypsum.h"

#include <cstdio>
#include <fstream>
#include <iterator>
#include <string>
#include <thread>
#include <vector>

namespace {

constexpr std::uint32_t width = 16, length = REPGYPSUM_MOST_OBJECTS, budget = 100000;

struct Run {
    std::string path;
    bool read = false;
    repgypsum_answer answer{};
    std::vector<std::uint8_t> plan = std::vector<std::uint8_t>(REPGYPSUM_PLAN_BYTES(width, length));
    std::uint8_t checked = 0;
    std::uint64_t cost = 0;
    std::uint64_t low = 0;

    void go()
    {
        std::ifstream file(path, std::ios::binary);
        if (!file) {
            return;
        }
        const std::vector<std::uint8_t> model{std::istreambuf_iterator<char>(file), std::istreambuf_iterator<char>()};
        read = true;
        std::vector<std::uint64_t> words(REPGYPSUM_WORDS(width, length));
        // A pure loading order needs no length limit; other models are searched with one.
        answer = repgypsum_load(model.data(), model.size(), width, budget, plan.data(), plan.size(), words.data(), words.size());
        if (answer.refused && answer.verdict == REPGYPSUM_OUTSIDE_PROFILE) {
            answer = repgypsum_search(model.data(), model.size(), width, length, budget, plan.data(), plan.size(), words.data(),
                                      words.size());
        }
        plan.resize(answer.length);
        checked = repgypsum_check_answer(model.data(), model.size(), plan.data(), plan.size());
        cost = repgypsum_check_cost(model.data(), model.size(), plan.data(), plan.size());
        low = repgypsum_check_low(model.data(), model.size(), plan.data(), plan.size());
    }

    // One line: the answer and the plan check's.
    bool print() const
    {
        if (!read) {
            std::printf("%s: cannot be read\n", path.c_str());
            return false;
        }
        if (answer.refused) {
            std::printf("refused %u\n", static_cast<unsigned>(answer.verdict));
            return false;
        }
        std::printf("verdict %u, cost %llu, bound %llu, low %llu, plan", static_cast<unsigned>(answer.verdict),
                    static_cast<unsigned long long>(answer.cost), static_cast<unsigned long long>(answer.bound),
                    static_cast<unsigned long long>(answer.low));
        for (const auto step : plan) {
            std::printf(" %u", static_cast<unsigned>(step));
        }
        std::printf("; plan check %u, cost %llu, low %llu\n", static_cast<unsigned>(checked),
                    static_cast<unsigned long long>(cost), static_cast<unsigned long long>(low));
        return !answer.flag || (checked == 0 && cost == answer.cost && low == answer.low);
    }
};

} // namespace

int main(int argc, char **argv)
{
    std::vector<Run> runs(static_cast<std::size_t>(argc > 1 ? argc - 1 : 0));
    std::vector<std::thread> threads;
    for (std::size_t i = 0; i < runs.size(); i++) {
        runs[i].path = argv[i + 1];
        threads.emplace_back(&Run::go, &runs[i]);
    }
    bool good = !runs.empty();
    for (std::size_t i = 0; i < runs.size(); i++) {
        threads[i].join();
        good = runs[i].print() && good;
    }
    return good ? 0 : 1;
}
