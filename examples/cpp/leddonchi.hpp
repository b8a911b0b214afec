// leddonchi.hpp: leddonchi.h by scope, for C++17. A table closes its handles, and a transaction frees its ranges, where its scope ends.
//
// What the header leaves to its caller, and what keeps it here: a key is a std::string_view, copied into a std::string, whose pointer is
// never null; each call has strings and a room for holders of its own; handles are zeroed by `Table`, which alone owns them, and stay in
// their place. `Table::handle` hands each of them out once, and a `Handle` is moved, never copied. Up to you: a handle and its
// transactions are in one thread at a time, and live no longer than their table, nor a transaction than its handle.
#ifndef LEDDONCHI_HPP
#define LEDDONCHI_HPP

#include "leddonchi.h"

#include <array>
#include <atomic>
#include <bitset>
#include <cstddef>
#include <cstdint>
#include <stdexcept>
#include <string>
#include <string_view>
#include <thread>
#include <utility>
#include <vector>

namespace lt {

// A call that did nothing but the joins which it made before: any status from 100 on.
struct Error : std::runtime_error {
    explicit Error(const lt_answer &answer)
        : std::runtime_error("leddonchi: status " + std::to_string(answer.status)), answer(answer) {}
    lt_answer answer;
};

// Calls until the table is not busy, and throws what came of it from 100 on. Trees that busy calls joined are counted.
template <typename Call> lt_answer insist(Call call) {
    for (std::uint32_t joins = 0;;) {
        lt_answer answer = call();
        joins += answer.joins;
        if (answer.status == LT_BUSY) {
            std::this_thread::yield();
            continue;
        }
        answer.joins = joins;
        if (answer.status >= LT_BAD_ARGUMENT) throw Error(answer);
        return answer;
    }
}

// What an ask came to: where it was refused, who holds the range.
struct Asked {
    lt_answer answer;
    std::vector<std::uint64_t> holders;
    bool granted() const { return answer.status != LT_HELD; }
};

// The place of a handle in its table, for one thread at a time.
class Handle {
public:
    Handle(Handle &&other) noexcept : at(std::exchange(other.at, nullptr)) {}
    Handle(const Handle &) = delete;
    Handle &operator=(const Handle &) = delete;
    Handle &operator=(Handle &&) = delete;

    Asked ask(std::uint64_t txn, std::uint32_t tree, std::string_view left, std::string_view right) {
        const std::string from(left), to(right);
        Asked asked{ {}, std::vector<std::uint64_t>(8) };
        std::uint32_t joins = 0;
        for (;;) {
            asked.answer = insist([&] {
                return lt_ask(at, txn, tree, bytes(from), from.size(), bytes(to), to.size(), asked.holders.data(), asked.holders.size());
            });
            joins += asked.answer.joins;
            const std::size_t count = asked.granted() ? 0 : asked.answer.count;
            const bool had_room = count <= asked.holders.size();
            asked.holders.resize(count);
            if (had_room) break; // else it asks again, with room for all
        }
        asked.answer.joins = joins;
        return asked;
    }

    // How many ranges went.
    std::uint64_t free(std::uint64_t txn, std::uint32_t tree, std::string_view left, std::string_view right, bool first) {
        const std::string from(left), to(right);
        return insist([&] { return lt_free(at, txn, tree, bytes(from), from.size(), bytes(to), to.size(), first); }).count;
    }

    // How many ranges went, of all that the transaction held in the tree. It goes through all rows of the tree.
    std::uint64_t release(std::uint64_t txn, std::uint32_t tree) {
        return insist([&] { return lt_release(at, txn, tree); }).count;
    }

    // How many ranges are left in the tree.
    std::uint64_t escalate(std::uint64_t txn, std::uint32_t tree) {
        return insist([&] { return lt_escalate(at, txn, tree); }).count;
    }

    std::uint64_t rows_in_use() {
        return insist([&] { return lt_look(at); }).count;
    }

    lt_counts counters() { return lt_counters(at); }

private:
    friend class Table;
    explicit Handle(lt_handle *at) : at(at) {}
    static const std::uint8_t *bytes(const std::string &key) { return reinterpret_cast<const std::uint8_t *>(key.data()); }
    lt_handle *at;
};

// A table with its handles.
class Table {
public:
    Table(std::size_t handles, std::uint32_t trees, std::uint64_t limit, std::uint64_t buffer) : handles(handles, lt_handle LT_HANDLE_INIT) {
        if (handles == 0) throw std::invalid_argument("leddonchi: a table without handles");
        const lt_answer answer = lt_open(this->handles.data(), handles, trees, limit, buffer);
        if (answer.status != LT_DONE) throw Error(answer);
    }
    ~Table() {
        for (lt_handle &handle : handles) lt_close(&handle);
    }
    Table(const Table &) = delete;
    Table &operator=(const Table &) = delete;

    // The next handle that was not handed out before.
    Handle handle() {
        const std::size_t next = taken.fetch_add(1, std::memory_order_relaxed);
        if (next >= handles.size()) throw std::out_of_range("leddonchi: all handles are handed out");
        return Handle(&handles[next]);
    }

private:
    std::vector<lt_handle> handles;
    std::atomic<std::size_t> taken{ 0 };
};

// A transaction, which frees all that it was granted where its scope ends.
class Transaction {
public:
    Transaction(Handle &handle, std::uint64_t number) : handle(handle), number(number) {}
    ~Transaction() { release(); }
    Transaction(const Transaction &) = delete;
    Transaction &operator=(const Transaction &) = delete;

    Asked ask(std::uint32_t tree, std::string_view left, std::string_view right) {
        ranges.push_back({ tree, std::string(left), std::string(right) }); // before the grant, so that none is lost for want of memory
        try {
            Asked asked = handle.ask(number, tree, left, right);
            if (!asked.granted()) ranges.pop_back();
            return asked;
        } catch (...) {
            ranges.pop_back();
            throw;
        }
    }

    // Joined ranges are still found: each has an end or more of those recorded here in it.
    std::uint64_t escalate(std::uint32_t tree) { return handle.escalate(number, tree); }

    // Frees all, and tells whether it did; what could not be freed (for want of memory, or of places) stays recorded.
    bool release() noexcept {
        std::bitset<16> begun;
        std::vector<Range> left;
        left.swap(ranges);
        while (!left.empty()) {
            const Range &range = left.back();
            try {
                handle.free(number, range.tree, range.left, range.right, !begun[range.tree]);
            } catch (...) {
                ranges.swap(left);
                return false;
            }
            begun.set(range.tree);
            left.pop_back();
        }
        return true;
    }

private:
    struct Range {
        std::uint32_t tree;
        std::string left, right;
    };
    Handle &handle;
    std::uint64_t number;
    std::vector<Range> ranges;
};

} // namespace lt

#endif
