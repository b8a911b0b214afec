// Plays a trace serially on RocksDB's range lock manager and prints one line per ask.
//   rocks_play [--plain] [--pairs] [--counters] [--memory BYTES] [--barrier KEY] < trace
#include <algorithm>
#include <cstring>
#include <iostream>
#include <map>
#include <sstream>

#include "rdb.h"

using namespace peer;

namespace {

// A barrier between endpoints a and b exactly where the mark m has a < m <= b.
int compare_endpoints(const std::string& a, bool ai, const std::string& b, bool bi) {
  size_t n = std::min(a.size(), b.size());
  int c = std::memcmp(a.data(), b.data(), n);
  if (c != 0) return c;
  if (a.size() < b.size()) return ai ? 1 : -1;
  if (b.size() < a.size()) return bi ? -1 : 1;
  return ai == bi ? 0 : (ai ? 1 : -1);
}

struct Play {
  Spelling spell;
  bool pairs = false, counters = false;
  std::unique_ptr<Db> db;
  std::map<uint64_t, rdb::Transaction*> open;
  std::map<uint64_t, uint64_t> by_id;  // RocksDB's transaction id -> trace's number
  std::map<uint64_t, bool> ended;
  uint64_t escalations = 0;
  uint32_t trees = 1;
  uint64_t n_granted = 0, n_held = 0, n_out = 0;

  rdb::Transaction* txn(uint64_t n) {
    auto it = open.find(n);
    if (it != open.end()) return it->second;
    rdb::Transaction* t = db->db->BeginTransaction(db->wo, db->to);
    by_id[t->GetID()] = n;
    open[n] = t;
    return t;
  }

  void after() {
    auto c = db->mgr->GetStatus();
    if (c.escalation_count != escalations) escalations = c.escalation_count;
    if (counters)
      std::cout << "  memory " << c.current_lock_memory << " escalations " << c.escalation_count
                << " waits " << c.lock_wait_count << "\n";
    if (!pairs) return;
    auto status = db->mgr->GetRangeLockStatusData();
    for (uint32_t t = 0; t < trees; t++) {
      struct Row { uint64_t owner; Key l, r; };
      std::vector<Row> rows;
      auto span = status.equal_range(db->tree(t)->GetID());
      for (auto it = span.first; it != span.second; ++it)
        for (auto id : it->second.ids) {
          auto f = by_id.find(id);
          rows.push_back(Row{f == by_id.end() ? 0 : f->second, spell.back(it->second.start),
                             spell.back(it->second.end)});
        }
      std::cout << "  pairs " << t;
      for (auto& r : rows)
        std::cout << " " << r.owner << " " << key_text(r.l) << " " << key_text(r.r);
      std::cout << "\n";
    }
  }

  void close(uint64_t n, bool commit) {
    auto it = open.find(n);
    if (it != open.end()) {
      must(commit ? it->second->Commit() : it->second->Rollback(), "release");
      delete it->second;
      open.erase(it);
    }
    ended[n] = true;
  }

  void ask(const Line& l) {
    rdb::Transaction* t = txn(l.txn);
    std::string lb = spell.bytes(l.left), rb = spell.bytes(l.right);
    rdb::Endpoint left(lb, Spelling::inf(l.left)), right(rb, Spelling::inf(l.right));
    uint64_t before = db->mgr->GetStatus().escalation_count;
    g_peek.waiter = t;
    g_peek.owners.clear();
    g_peek.seen = false;
    rdb::Status s = t->GetRangeLock(db->tree(l.tree), left, right);
    g_peek.waiter = nullptr;
    uint64_t passed = db->mgr->GetStatus().escalation_count - before;
    for (uint64_t i = 0; i < passed; i++)
      std::cout << l.number << " " << l.txn << " escalation\n";
    std::ostringstream head;
    head << l.number << " " << l.txn << " ask " << l.tree << " " << key_text(l.left) << " "
         << key_text(l.right);
    if (s.ok()) {
      n_granted++;
      std::cout << head.str() << " granted\n";
      return;
    }
    if (s.IsTimedOut()) {
      n_held++;
      std::vector<uint64_t> owners;
      for (auto id : g_peek.owners) owners.push_back(by_id.count(id) ? by_id[id] : 0);
      std::sort(owners.begin(), owners.end());
      std::cout << head.str() << " held by";
      if (!g_peek.seen) std::cout << " unknown";
      for (uint64_t o : owners) std::cout << " " << o;
      std::cout << "\n";
      return;
    }
    if (s.subcode() == rdb::Status::SubCode::kLockLimit) {
      n_out++;
      std::cout << head.str() << " outoflocks\n";
      close(l.txn, false);
      return;
    }
    std::cout << head.str() << " other " << s.ToString() << "\n";
  }

  // RocksDB has no call that escalates. With the limit set to the memory in use, the next
  // acquisition of any transaction escalates every tree first; a helper transaction makes
  // one in the default column family and is rolled back.
  void escalate(const Line& l) {
    size_t was = db->mgr->GetMaxLockMemory();
    uint64_t before = db->mgr->GetStatus().escalation_count;
    size_t use = db->mgr->GetStatus().current_lock_memory;
    if (use != 0 && db->mgr->SetMaxLockMemory(use) == 0) {
      rdb::Transaction* h = db->db->BeginTransaction(db->wo, db->to);
      h->GetRangeLock(db->cfs[0], rdb::Endpoint("h"), rdb::Endpoint("h"));
      h->Rollback();
      delete h;
      db->mgr->SetMaxLockMemory(was);
    }
    std::cout << l.number << " " << l.txn << " escalate " << l.tree << " runs "
              << db->mgr->GetStatus().escalation_count - before << "\n";
  }
};

}  // namespace

int main(int argc, char** argv) {
  Play p;
  size_t memory = 0;
  std::string mark;
  bool cut = false;
  for (int i = 1; i < argc; i++) {
    std::string a = argv[i];
    if (a == "--plain") p.spell.shifted = false;
    else if (a == "--pairs") p.pairs = true;
    else if (a == "--counters") p.counters = true;
    else if (a == "--memory" && i + 1 < argc) memory = std::strtoull(argv[++i], nullptr, 10);
    else if (a == "--barrier" && i + 1 < argc) { mark = argv[++i]; cut = true; }
    else {
      std::cerr << "usage: rocks_play [--plain] [--pairs] [--counters] [--memory BYTES] "
                   "[--barrier KEY] < trace\n";
      return 2;
    }
  }
  std::ios::sync_with_stdio(false);
  Trace trace = read_trace(std::cin);
  p.trees = trace.trees;
  p.db = std::make_unique<Db>(trace.trees, false, std::make_shared<NoSleepFactory>());
  if (memory != 0 && p.db->mgr->SetMaxLockMemory(memory) != 0) {
    std::cerr << "SetMaxLockMemory refused\n";
    return 9;
  }
  if (cut) {
    Key mk{KeyKind::Bytes, mark};
    std::string m = p.spell.bytes(mk);
    bool show = std::getenv("SHOW_BARRIER_CALLS") != nullptr;
    p.db->mgr->SetEscalationBarrierFunc([m, show](const rdb::Endpoint& a, const rdb::Endpoint& b) {
      if (show)
        std::cout << "  barrier asked for " << a.slice.ToString() << (a.inf_suffix ? "*" : "") << " "
                  << b.slice.ToString() << (b.inf_suffix ? "*" : "") << "\n";
      return compare_endpoints(a.slice.ToString(), a.inf_suffix, m, false) < 0 &&
             compare_endpoints(m, false, b.slice.ToString(), b.inf_suffix) <= 0;
    });
  }
  for (const Line& l : trace.lines) {
    if (p.ended.count(l.txn)) continue;
    switch (l.deed) {
      case Deed::Try:
      case Deed::Lock: p.ask(l); break;
      case Deed::Escalate: p.txn(l.txn); p.escalate(l); break;
      case Deed::End: p.close(l.txn, true); std::cout << l.number << " " << l.txn << " end\n"; break;
      case Deed::Abort: p.close(l.txn, false); std::cout << l.number << " " << l.txn << " abort\n"; break;
    }
    p.after();
  }
  while (!p.open.empty()) {
    uint64_t n = p.open.begin()->first;
    p.close(n, true);
    std::cout << "0 " << n << " end\n";
    p.after();
  }
  auto c = p.db->mgr->GetStatus();
  std::cout << "total granted " << p.n_granted << " held " << p.n_held << " outoflocks " << p.n_out
            << " escalations " << c.escalation_count << " memory " << c.current_lock_memory << "\n";
  return 0;
}
