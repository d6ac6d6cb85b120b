// What the machine asks for, whoever writes the program: the least work between threads that the loads cannot do without.
#include <algorithm>
#include <atomic>
#include <chrono>
#include <cstdint>
#include <cstdio>
#include <cstdlib>
#include <cstring>
#include <functional>
#include <immintrin.h>
#include <linux/futex.h>
#include <memory>
#include <mutex>
#include <sys/mman.h>
#include <sys/syscall.h>
#include <thread>
#include <unistd.h>
#include <vector>

using Word = std::atomic<uint64_t>;

// A bounded queue as the kit lays it out: a tail and a head on lines of their own, a stamp for each slot side by side.
template <size_t BYTES, size_t ROOM> struct Queue {
  struct Item { uint64_t words[BYTES / 8]; };
  alignas(64) Word tail{0};
  alignas(64) Word head{0};
  alignas(64) Word stamps[ROOM];
  alignas(64) Item slots[ROOM]{};
  Queue() { for (size_t k = 0; k < ROOM; k++) stamps[k] = k; }

  bool push(const Item &item) {
    uint64_t at = tail;
    if (stamps[at % ROOM] != at || !tail.compare_exchange_strong(at, at + 1)) return false;
    slots[at % ROOM] = item;
    stamps[at % ROOM] = at + 1;
    return true;
  }

  bool pop(Item &item) {
    uint64_t at = head;
    if (stamps[at % ROOM] != at + 1 || !head.compare_exchange_strong(at, at + 1)) return false;
    item = slots[at % ROOM];
    slots[at % ROOM] = Item{};
    stamps[at % ROOM] = at + ROOM;
    return true;
  }

  void send(const Item &item) { while (!push(item)) _mm_pause(); }
  Item take() { Item item; while (!pop(item)) _mm_pause(); return item; }
};

static double milliseconds(const std::function<void()> &work) {
  std::vector<double> found;
  for (int k = 0; k < 11; k++) {
    auto began = std::chrono::steady_clock::now();
    work();
    found.push_back(std::chrono::duration<double, std::milli>(std::chrono::steady_clock::now() - began).count());
  }
  std::sort(found.begin(), found.end());
  return found[5];
}

static void start_sixteen() {
  std::vector<std::thread> all;
  for (int k = 0; k < 16; k++) all.emplace_back([] {});
  for (auto &it : all) it.join();
}

static void sleep_at(std::atomic<int> &word, int seen) {
  while (word == seen) syscall(SYS_futex, &word, FUTEX_WAIT_PRIVATE, seen, nullptr, nullptr, 0);
}

static void wake_at(std::atomic<int> &word) {
  word++;
  syscall(SYS_futex, &word, FUTEX_WAKE_PRIVATE, 1, nullptr, nullptr, 0);
}

// Eight clients in turn, each asleep until it is woken; where a handler has to answer, that is asleep too.
static void pass_turns(bool with_handlers) {
  static std::atomic<int> turn[8], asked[8], answered[8];
  for (int k = 0; k < 8; k++) turn[k] = asked[k] = answered[k] = 0;
  std::vector<std::thread> all;
  for (int k = 0; k < 8; k++) all.emplace_back([=] {
    for (int round = 0; round < 32; round++) {
      sleep_at(turn[k], round);
      if (with_handlers) { wake_at(asked[k]); sleep_at(answered[k], round); }
      wake_at(turn[(k + 1) % 8]);
    }
  });
  for (int k = 0; k < 8; k++) all.emplace_back([=] {
    for (int round = 0; with_handlers && round < 32; round++) { sleep_at(asked[k], round); wake_at(answered[k]); }
  });
  wake_at(turn[0]);
  for (auto &it : all) it.join();
}

// A request and its answer, 50,000 times, by two threads that never sleep.
static void ask_and_answer() {
  static Queue<104, 16> down;
  static Queue<104, 16> up;
  std::thread handler([] { for (int k = 0; k < 50000; k++) { down.take(); up.send({}); } });
  for (int k = 0; k < 50000; k++) { down.send({}); up.take(); }
  handler.join();
}

// The same where the object is lent, with what a query after a command does to it. The object goes home, a chunk with the
// command follows it and comes back empty, and the object is asked for once more. Handler and client each put an entry
// into its journal.
static void lend_and_ask(bool with_journal) {
  static Queue<104, 16> down;
  static Queue<104, 16> up;
  Queue<40, 4> spare;
  static uint64_t chunks[4][8], balance;
  static std::vector<uint64_t> journal;
  journal.assign(with_journal ? 100000 * 9 : 0, 0);
  journal.clear();
  for (uint64_t k = 0; k < 4; k++) spare.send({{k}});
  auto enter = [=](uint64_t value) {
    if (!with_journal) return;
    balance += value;
    for (int word = 0; word < 9; word++) journal.push_back(balance);
  };
  std::thread handler([&] {
    for (int k = 0; k < 50000; k++) {
      down.take();
      uint64_t place = down.take().words[0];
      enter(chunks[place][1]);
      spare.send({{place}});
      down.take();
      up.send({});
    }
  });
  for (int k = 0; k < 50000; k++) {
    down.send({});
    uint64_t place = spare.take().words[0];
    for (int word = 0; word < 6; word++) chunks[place][word] = k;
    down.send({{place}});
    down.send({});
    up.take();
    enter(k);
  }
  handler.join();
}

static uint64_t *fresh(size_t bytes) {
  return (uint64_t *)mmap(nullptr, bytes, PROT_READ | PROT_WRITE, MAP_PRIVATE | MAP_ANONYMOUS, -1, 0);
}

// Where a thread sleeps that finds nothing by some 3 microseconds of looks.
struct Sleeper {
  alignas(64) std::atomic<int> epoch{0}, waiting{0};

  void wake() {
    if (waiting) { epoch++; syscall(SYS_futex, &epoch, FUTEX_WAKE_PRIVATE, 1, nullptr, nullptr, 0); }
  }

  template <class Queue> uint64_t take(Queue &queue) {
    typename Queue::Item item;
    while (true) {
      for (int look = 0; look < 80; look++) {
        if (queue.pop(item)) return item.words[0];
        if (look >= 30) _mm_pause();
      }
      waiting++;
      int seen = epoch;
      bool found = queue.pop(item);
      if (!found) syscall(SYS_futex, &epoch, FUTEX_WAIT_PRIVATE, seen, nullptr, nullptr, 0);
      waiting--;
      if (found) return item.words[0];
    }
  }
};

// A client and a handler between whom chunks of requests go down and come back empty, four at most. One writes a trace
// of them, the other a journal, in memory that is new, to which each first writes once where `early` is set.
template <int size> struct Lane {
  Queue<104, 16> down;
  Queue<40, 4> spare;
  Sleeper client, handler;
  uint64_t rooms[4 * size * 6];

  static uint64_t *books(size_t bytes, bool early) {
    uint64_t *memory = fresh(bytes);
    for (size_t at = 0; early && at < bytes / 8; at++) memory[at] = 0;
    return memory;
  }

  void serve(int chunks, bool early) {
    uint64_t balance = 0, *journal = books(chunks * size * 72, early), *to = journal;
    for (int k = 0; k < chunks; k++) {
      uint64_t place = handler.take(down);
      for (uint64_t *from = &rooms[place * size * 6], *end = from + size * 6; from < end; from += 6, to += 9) {
        balance += from[1];
        memcpy(to, from, 48);
        to[6] = to[7] = to[8] = balance;
      }
      spare.send({{place}});
      client.wake();
    }
    munmap(journal, chunks * size * 72);
  }

  void ask(int chunks, bool early) {
    uint64_t *trace = books(chunks * size * 64, early), *to = trace;
    for (int k = 0; k < chunks; k++) {
      uint64_t place = client.take(spare);
      for (uint64_t *at = &rooms[place * size * 6], *end = at + size * 6; at < end; at += 6, to += 8) {
        for (int word = 0; word < 6; word++) at[word] = to[word] = word + k;
        to[6] = to[7] = 0;
      }
      down.send({{place}});
      handler.wake();
    }
    munmap(trace, chunks * size * 64);
  }
};

template <int size> static void pass_chunks(int lanes, int chunks, bool early) {
  std::vector<std::unique_ptr<Lane<size>>> all;
  std::vector<std::thread> threads;
  for (int k = 0; k < lanes; k++) {
    all.push_back(std::make_unique<Lane<size>>());
    Lane<size> *lane = all.back().get();
    for (uint64_t place = 0; place < 4; place++) lane->spare.send({{place}});
    threads.emplace_back([=] { lane->serve(chunks, early); });
    threads.emplace_back([=] { lane->ask(chunks, early); });
  }
  for (auto &it : threads) it.join();
}

// 256 short blocks of eight clients, each at two or at all of eight handlers that take blocks by their tickets. At each a
// chunk goes down and comes back, and the block ends; where a query follows, the object comes up before and goes home.
// Nobody keeps a trace or a journal.
struct Office {
  enum Parcel : uint64_t { sync = 100, home, end };
  struct Desk { Queue<40, 64> tickets; Sleeper handler; Queue<104, 16> down[8], up[8]; Queue<40, 4> spare[8]; };
  bool at_all;
  Desk desks[8];
  Sleeper clients[8];
  std::mutex order;

  explicit Office(bool at_all) : at_all(at_all) {
    for (auto &desk : desks) for (auto &spare : desk.spare) for (uint64_t place = 0; place < 4; place++) spare.send({{place}});
  }

  std::vector<int> reserved(int client, int block) {
    if (at_all) return {0, 1, 2, 3, 4, 5, 6, 7};
    return {block % 8, (block + client % 7 + 1) % 8};
  }

  void serve(int number) {
    int blocks = 0;
    for (int client = 0; client < 8; client++)
      for (int block = 0; block < 32; block++) for (int it : reserved(client, block)) blocks += it == number;
    Desk &desk = desks[number];
    while (blocks-- > 0) {
      uint64_t client = desk.handler.take(desk.tickets), parcel;
      while ((parcel = desk.handler.take(desk.down[client])) != end) {
        if (parcel < sync) { desk.spare[client].send({{parcel}}); clients[client].wake(); }
        if (parcel == sync) { desk.up[client].send({}); clients[client].wake(); }
      }
    }
  }

  void send(int client, Desk &desk, uint64_t parcel) { desk.down[client].send({{parcel}}); }

  void ask(int client, Desk &desk) {
    send(client, desk, clients[client].take(desk.spare[client]));
    send(client, desk, sync);
    desk.handler.wake();
    clients[client].take(desk.up[client]);
  }

  void visit(int client) {
    for (int block = 0; block < 32; block++) {
      std::vector<Desk *> held;
      for (int it : reserved(client, block)) held.push_back(&desks[it]);
      {
        std::lock_guard<std::mutex> one(order);
        for (Desk *desk : held) desk->tickets.send({{uint64_t(client)}});
      }
      for (Desk *desk : held) desk->handler.wake();
      if (at_all) for (size_t k = 1; k < held.size(); k++) send(client, *held[k], clients[client].take(held[k]->spare[client]));
      for (size_t k = 0; k < (at_all ? 1 : held.size()); k++) ask(client, *held[k]);
      for (size_t k = 0; k < held.size(); k++) {
        if (k == 0 || !at_all) send(client, *held[k], home);
        send(client, *held[k], end);
        held[k]->handler.wake();
      }
    }
  }
};

static void visit_all(bool at_all) {
  auto office = std::make_unique<Office>(at_all);
  std::vector<std::thread> all;
  for (int k = 0; k < 8; k++) all.emplace_back([&, k] { office->serve(k); });
  for (int k = 0; k < 8; k++) all.emplace_back([&, k] { office->visit(k); });
  for (auto &it : all) it.join();
}

// The trace and the journal of 100,000 commands, an entry of 64 and one of 72 bytes for each, in memory that is new.
static void write_books() {
  const int commands = 100000;
  uint64_t *trace = fresh(commands * 64), *journal = fresh(commands * 72);
  for (int k = 0; k < commands; k++) {
    for (int word = 0; word < 8; word++) trace[8 * k + word] = k + word;
    for (int word = 0; word < 9; word++) journal[9 * k + word] = k + word;
  }
  munmap(trace, commands * 64);
  munmap(journal, commands * 72);
}

int main() {
  printf("trace and journal of 100,000 commands, written to new memory: %.1f\n", milliseconds(write_books));
  printf("sixteen threads started and joined: %.1f\n", milliseconds(start_sixteen));
  printf("256 turns of eight sleepers: %.1f\n", milliseconds([] { pass_turns(false); }));
  printf("256 turns of eight sleepers, each with another sleeper's answer: %.1f\n", milliseconds([] { pass_turns(true); }));
  printf("256 short blocks of eight clients at all of eight handlers: %.1f\n", milliseconds([] { visit_all(true); }));
  printf("256 short blocks of eight clients at two of eight handlers: %.1f\n", milliseconds([] { visit_all(false); }));
  printf("50,000 requests and answers through two queues: %.1f\n", milliseconds(ask_and_answer));
  printf("50,000 times an object home, a chunk, a request, and both back: %.1f\n", milliseconds([] { lend_and_ask(false); }));
  printf("the same with a journal in which both write: %.1f\n", milliseconds([] { lend_and_ask(true); }));
  for (bool early : {false, true}) {
    const char *when = early ? " that is written to before" : "";
    printf("12,500 chunks of 8 requests, with trace and journal in new memory%s: %.1f\n", when, milliseconds([=] { pass_chunks<8>(1, 12500, early); }));
    printf("3,125 chunks of 32 requests: %.1f\n", milliseconds([=] { pass_chunks<32>(1, 3125, early); }));
    printf("eight pairs of threads with 1,500 chunks of 8 each: %.1f\n", milliseconds([=] { pass_chunks<8>(8, 1500, early); }));
  }
}
