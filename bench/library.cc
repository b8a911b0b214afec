// Measures the C library on a trace that is read first, as bench.cc measures RocksDB's calls.
//   library TRACE [--prep N] [--reps R] [--threads N] [--at-once]
// Every `try` and every `lock` is one lt_ask; `end` and `abort` are one lt_free for each range that the transaction was granted, or, with
// --at-once, one lt_release for each tree in which it was granted one. The table is new for each repetition, of the trace's trees, limit
// and buffer. With --threads N the transaction of index i (ascending) is played whole by thread i mod N, through
// a handle of its own; a call that is busy yields and is made again. The trace must have no line that is held.
// One line of numbers: the best and the median of the repetitions.
#include <leddonchi.h>

#include <algorithm>
#include <atomic>
#include <chrono>
#include <fstream>
#include <iostream>
#include <map>
#include <thread>
#include <unordered_map>

#include "trace.h"

using namespace peer;

namespace {

struct Op {
  Deed deed;
  uint64_t txn;
  uint32_t tree;
  std::string l, r;
};

struct Times {
  uint64_t wall_ns = 0, esc_ns = 0, escs = 0, asks = 0, granted = 0, busy = 0;
};

uint64_t now_ns() {
  return static_cast<uint64_t>(
      std::chrono::duration_cast<std::chrono::nanoseconds>(std::chrono::steady_clock::now().time_since_epoch()).count());
}

const uint8_t* bytes(const std::string& s) { return reinterpret_cast<const uint8_t*>(s.data()); }

// Makes a call until it is not busy.
template <class Call>
lt_answer until_done(Times& t, Call call) {
  for (;;) {
    lt_answer answer = call();
    if (answer.status != LT_BUSY) return answer;
    t.busy++;
    std::this_thread::yield();
  }
}

[[noreturn]] void unexpected(uint32_t status) {
  std::cerr << "unexpected answer: " << status << "\n";
  std::exit(9);
}

// What a transaction was granted: its ranges, in their order.
using Grants = std::unordered_map<uint64_t, std::vector<const Op*>>;

// Frees all that a transaction was granted. The first free in each tree says so.
void release(lt_handle* handle, uint64_t txn, const std::vector<const Op*>& granted, bool at_once, Times& t) {
  std::vector<bool> begun(16);
  for (const Op* o : granted) {
    bool first = !begun[o->tree];
    begun[o->tree] = true;
    if (at_once && !first) continue;
    lt_answer answer = until_done(t, [&] {
      if (at_once) return lt_release(handle, txn, o->tree);
      return lt_free(handle, txn, o->tree, bytes(o->l), o->l.size(), bytes(o->r), o->r.size(), first);
    });
    if (answer.status != LT_DONE) unexpected(answer.status);
  }
}

// Plays ops [from, to) through one handle.
void play(lt_handle* handle, bool at_once, const std::vector<Op>& ops, size_t from, size_t to, Grants& grants, Times& t) {
  uint64_t start = now_ns();
  for (size_t i = from; i < to; i++) {
    const Op& o = ops[i];
    if (o.deed == Deed::Try || o.deed == Deed::Lock) {
      uint64_t holders[4];
      lt_answer answer = until_done(t, [&] {
        return lt_ask(handle, o.txn, o.tree, bytes(o.l), o.l.size(), bytes(o.r), o.r.size(), holders, 4);
      });
      if (answer.status > LT_BUFFERED) unexpected(answer.status);
      grants[o.txn].push_back(&o);
      t.asks++;
      t.granted++;
    } else if (o.deed == Deed::Escalate) {
      uint64_t before = now_ns();
      until_done(t, [&] { return lt_escalate(handle, o.txn, o.tree); });
      t.esc_ns += now_ns() - before;
      t.escs++;
    } else {
      release(handle, o.txn, grants[o.txn], at_once, t);
      grants.erase(o.txn);
    }
  }
  t.wall_ns += now_ns() - start;
}

double least(const std::vector<double>& v) { return *std::min_element(v.begin(), v.end()); }
double median(std::vector<double> v) {
  std::sort(v.begin(), v.end());
  return v[v.size() / 2];
}

Times run_threads(std::vector<lt_handle>& handles, bool at_once, const std::vector<std::vector<Op>>& per_thread) {
  size_t threads = per_thread.size();
  std::vector<Times> ts(threads);
  std::atomic<size_t> ready{0};
  std::atomic<bool> go{false};
  std::vector<std::thread> th;
  for (size_t k = 0; k < threads; k++)
    th.emplace_back([&, k] {
      ready++;
      while (!go) {
      }
      Grants grants;
      play(&handles[k], at_once, per_thread[k], 0, per_thread[k].size(), grants, ts[k]);
    });
  while (ready != threads) {
  }
  uint64_t start = now_ns();
  go = true;
  for (auto& x : th) x.join();
  Times t;
  t.wall_ns = now_ns() - start;
  for (auto& q : ts) {
    t.asks += q.asks;
    t.granted += q.granted;
    t.busy += q.busy;
  }
  return t;
}

}  // namespace

int main(int argc, char** argv) {
  std::string file;
  size_t prep = 0, reps = 5, threads = 1;
  bool at_once = false;
  for (int i = 1; i < argc; i++) {
    std::string a = argv[i];
    auto num = [&] { return static_cast<size_t>(std::strtoull(argv[++i], nullptr, 10)); };
    if (a == "--prep" && i + 1 < argc) prep = num();
    else if (a == "--reps" && i + 1 < argc) reps = num();
    else if (a == "--threads" && i + 1 < argc) threads = num();
    else if (a == "--at-once") at_once = true;
    else if (file.empty() && a[0] != '-') file = a;
    else return 2;
  }
  if (threads < 1 || threads > 17 || reps < 1) return 2;
  std::ifstream in(file);
  if (!in) return 2;
  Trace trace = read_trace(in);
  std::vector<Op> ops;
  std::map<uint64_t, std::vector<Op>> by_txn;
  for (const Line& l : trace.lines) {
    ops.push_back(Op{l.deed, l.txn, l.tree, l.left.bytes, l.right.bytes});
    by_txn[l.txn].push_back(ops.back());
  }
  std::vector<std::vector<Op>> per_thread(threads);
  size_t index = 0;
  for (auto& of : by_txn) {
    auto& mine = per_thread[index++ % threads];
    mine.insert(mine.end(), of.second.begin(), of.second.end());
  }
  std::vector<double> per_ask, escalate;
  Times last;
  for (size_t r = 0; r < reps; r++) {
    std::vector<lt_handle> handles(threads, lt_handle LT_HANDLE_INIT);
    if (lt_open(handles.data(), threads, trace.trees, trace.limit, trace.buffer).status != LT_DONE) return 9;
    Times t;
    if (threads == 1) {
      Times before;
      Grants grants;
      play(&handles[0], at_once, ops, 0, prep, grants, before);
      play(&handles[0], at_once, ops, prep, ops.size(), grants, t);
    } else {
      t = run_threads(handles, at_once, per_thread);
    }
    for (auto& handle : handles) lt_close(&handle);
    per_ask.push_back(t.asks ? double(t.wall_ns - t.esc_ns) / double(t.asks) : 0);
    escalate.push_back(t.escs ? double(t.esc_ns) / double(t.escs) : 0);
    last = t;
  }
  std::cout << "asks " << last.asks << " granted " << last.granted << " busy " << last.busy << " escalate_best " << least(escalate)
            << " escalate_median " << median(escalate) << " wall_per_ask_best " << least(per_ask) << " wall_per_ask_median "
            << median(per_ask) << "\n";
  return 0;
}
