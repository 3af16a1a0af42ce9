/*
 * From what three workers did to where they restart and what they send again, in C++.
 *
 *     c++ -std=c++17 -I include examples/first_book.cpp target/staticlib/librecovery_line.a -o first_book
 *     ./first_book
 */
#include "rline.h"

#include <iostream>
#include <memory>
#include <vector>

int main() {
    auto tables = std::make_unique<rline_tables>();
    rline_order order{};
    std::vector<uint8_t> buffer(100);
    constexpr rline_process one{1}, two{2}, three{3};

    // What happened, in order. Every worker began on its checkpoint 1.
    auto journal = rline_journal_begin(buffer.data(), buffer.size(), 3);
    rline_journal_sent(&journal, one, two);
    rline_journal_checkpoint(&journal, one);
    rline_journal_received(&journal, two, one);
    rline_journal_checkpoint(&journal, two);
    rline_journal_sent(&journal, two, three);
    rline_journal_checkpoint(&journal, two);
    rline_journal_received(&journal, three, two);
    rline_journal_sent(&journal, one, three); // after worker 1's newest checkpoint,
    rline_journal_received(&journal, three, one);
    rline_journal_checkpoint(&journal, three); // and so this one does not fit that

    auto refused = rline_read_journal(tables.get(), &journal);
    if (!refused) refused = rline_restart_order(tables.get(), RECOVERY_LINE_ADVANCE_AND_RESTART, &order);
    if (refused) {
        std::cerr << "refused by question " << refused << ": " << recovery_line_question(refused) << '\n';
        return 1;
    }
    const auto n = rline_processes(tables.get());
    for (uint64_t p = 1; p <= n; p++) {
        const auto restart = rline_order_get(&order, {p});
        std::cout << "worker " << p << " restarts from checkpoint " << restart.from.number << '\n';
    }
    for (uint64_t p = 1; p <= n; p++) {
        for (uint64_t q = 1; q <= n; q++) {
            const auto repeat = rline_order_repeat(&order, {p}, {q});
            for (uint64_t k = repeat.first; k != 0 && k <= repeat.last; k++) {
                std::cout << "worker " << p << " sends worker " << q << " message " << k << " again\n";
            }
        }
    }
}
