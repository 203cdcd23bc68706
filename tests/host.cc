// A host in C++: the header's functions by their names in C, on plan P, whose positions are 2 and 5.
#include <cstdio>
#include <vector>

#include <lucarnecress.h>

int main()
{
    std::vector<uint8_t> plan = {0x01, 3, 0, 0, 0, 0, 0, 0, 0, 0, 0, 0, 0, 0, 0, 0, 0, 0, 0, 0, 0, 0, 0, 0, 0, // RULE
                                 0x01, 4, 0, 0, 0, 0, 0, 0, 0, 1, 0, 0, 0, 0, 0, 0, 0, 0, 0, 0, 0, 0, 0, 0, 0, // RULE
                                 0x02, 1, 0, 0, 0, 0, 0, 0, 0, 0x02, 2, 0, 0, 0, 0, 0, 0, 0,                   // UNITs
                                 0x03, 1, 0, 0x00};                                                            // EDGE, END
    std::vector<uint64_t> table(LUCARNECRESS_TABLE_WORDS), counts(LUCARNECRESS_COUNTS);
    auto code = lucarnecress_list(plan.data(), plan.size(), table.data(), table.size(), counts.data(), counts.size());
    bool right = code == LUCARNECRESS_LISTED && counts[LUCARNECRESS_LAST_COUNT] == 2 && table[LUCARNECRESS_LAST_LIST] == 2 &&
                 table[LUCARNECRESS_LAST_LIST + 1] == 5 && lucarnecress_judge(plan.data(), plan.size(), 5) == LUCARNECRESS_SETTLED;
    if (!right)
        std::puts("host.cc: not the positions of plan P");
    return right ? 0 : 1;
}
