// Two threads of an engine, each with a handle of one table, and transactions that free what they hold where their scope ends: a grant, a
// refusal with its holder, an escalation, a release by scope, the grant behind it, and asks side by side.
#include "leddonchi.hpp"

#include <condition_variable>
#include <cstdio>
#include <iostream>
#include <mutex>

namespace {

constexpr int keys = 500;

// Lets one thread go at a time.
class Turns {
public:
    void wait_for(int mine) {
        std::unique_lock<std::mutex> lock(gate);
        moved.wait(lock, [&] { return turn == mine; });
    }
    void next() {
        const std::lock_guard<std::mutex> lock(gate);
        ++turn;
        moved.notify_all();
    }

private:
    std::mutex gate;
    std::condition_variable moved;
    int turn = 0;
};

void ask_and_tell(lt::Transaction &txn, int number, std::uint32_t tree, const char *left, const char *right) {
    const lt::Asked asked = txn.ask(tree, left, right);
    std::cout << number << " asks for " << left << " to " << right << " in tree " << tree << ": ";
    if (asked.granted()) std::cout << "granted";
    else {
        std::cout << "held by";
        for (const std::uint64_t holder : asked.holders) std::cout << ' ' << holder;
    }
    std::cout << '\n';
}

// Asks for so many keys that no other asks for, and tells how many were granted.
int ask_for_keys(lt::Transaction &txn, int number) {
    int granted = 0;
    for (int i = 0; i < keys; i++) {
        char key[16];
        std::snprintf(key, sizeof key, "%d-%03d", number, i);
        granted += txn.ask(0, key, key).granted();
    }
    return granted;
}

Turns turns;
int granted[2];

void first(lt::Handle handle) {
    turns.wait_for(0);
    {
        lt::Transaction one(handle, 1);
        ask_and_tell(one, 1, 0, "apple", "cherry");
        turns.next();
        turns.wait_for(2);
        ask_and_tell(one, 1, 0, "damson", "elder");
        ask_and_tell(one, 1, 1, "fig", "grape");
        std::cout << handle.rows_in_use() << " rows are in use\n";
        std::cout << "1 escalates tree 0: " << one.escalate(0) << " range is left\n";
        turns.next();
        turns.wait_for(4);
    }
    std::cout << "the scope of 1 has ended: " << handle.rows_in_use() << " rows are in use\n";
    turns.next();
    turns.wait_for(6);
    lt::Transaction three(handle, 3);
    granted[0] = ask_for_keys(three, 3);
}

void second(lt::Handle handle) {
    lt::Transaction two(handle, 2);
    turns.wait_for(1);
    ask_and_tell(two, 2, 0, "banana", "date");
    turns.next();
    turns.wait_for(3);
    ask_and_tell(two, 2, 0, "czar", "czar");
    ask_and_tell(two, 2, 1, "grape", "grape");
    turns.next();
    turns.wait_for(5);
    ask_and_tell(two, 2, 0, "banana", "date");
    ask_and_tell(two, 2, 1, "grape", "grape");
    turns.next();
    granted[1] = ask_for_keys(two, 2);
}

} // namespace

int main() {
    lt::Table table(3, 2, 2000, 0);
    lt::Handle own = table.handle();
    std::thread one(first, table.handle());
    std::thread two(second, table.handle());
    one.join();
    two.join();
    std::cout << "side by side: 3 was granted " << granted[0] << " keys, 2 was granted " << granted[1] << '\n';
    std::cout << "all scopes have ended: " << own.rows_in_use() << " rows are in use\n";
    try {
        lt::Transaction four(own, 4);
        ask_and_tell(four, 4, 0, "a", "z");
        four.ask(0, "z", "a");
    } catch (const lt::Error &error) {
        std::cout << "4 asks for z to a: " << error.what() << '\n';
    }
    std::cout << "behind the error: " << own.rows_in_use() << " rows are in use\n";
}
