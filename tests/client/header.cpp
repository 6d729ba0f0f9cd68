// The header in C++: included twice, and the calls linked under their C names.
#include "yittomere.h"
#include "yittomere.h"

#include "check.h"

#include <vector>

int main() {
    std::vector<uint32_t> table(YITTOMERE_TABLE_WORDS(2, 4, 1));
    const std::vector<uint32_t> steps = {YITTOMERE_OPEN, 0, YITTOMERE_READ_YOUR_WRITES, 0, 0, YITTOMERE_WRITE, 0, 7, 50, 1};
    std::vector<uint32_t> answers(steps.size());
    uint32_t answer[YITTOMERE_ANSWER_WORDS];
    CHECK(yittomere_make(table.data(), table.size(), 2, 4, 1) == YITTOMERE_DONE, 0);
    CHECK(yittomere_run(table.data(), table.size(), steps.data(), steps.size(), answers.data(), answers.size()) == YITTOMERE_DONE, 0);
    CHECK(answers[YITTOMERE_ANSWER_WORDS + YITTOMERE_ANSWER_CLOCK] == 1, 0);
    CHECK(yittomere_step(table.data(), table.size(), YITTOMERE_READ, 0, 7, 2, 0, answer, YITTOMERE_ANSWER_WORDS) == YITTOMERE_BEHIND, 0);
    return closing();
}
