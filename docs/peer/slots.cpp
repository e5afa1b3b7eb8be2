// A plain C++ model of the slot queue, to tell where its time goes: one producer and one consumer, 64 slots, a word a
// slot that says whose turn it is. The word is stored sequentially consistent, as `atomic_table` does, or with release;
// words stand side by side or in a cache line each. Prints nanoseconds a message, the fastest of five runs.
//
//   g++ -std=c++17 -O2 -pthread -o slots slots.cpp && ./slots 5000000
#include <atomic>
#include <chrono>
#include <cstdint>
#include <cstdio>
#include <cstdlib>
#include <memory>
#include <new>
#include <optional>
#include <thread>
#include <utility>

struct Message {
  uint64_t timestamp;
  uint64_t kind;
  uint64_t fields[4];
  std::unique_ptr<uint8_t[]> payload;
};

struct SideBySide {
  std::atomic<uint8_t> word{0};
};

struct alignas(64) OwnLine {
  std::atomic<uint8_t> word{0};
};

constexpr size_t kSlots = 64;
constexpr uint8_t kProducers = 0, kConsumers = 0x80;

template <typename Word, std::memory_order kStore>
class SlotQueue {
 public:
  bool push(size_t &place, Message &message) {
    if (words_[place].word.load(std::memory_order_acquire) != kProducers) return false;
    std::exchange(slots_[place], std::optional<Message>(std::move(message)));
    words_[place].word.store(kConsumers, kStore);
    place = place + 1 == kSlots ? 0 : place + 1;
    return true;
  }

  std::optional<Message> pop(size_t &place) {
    if (words_[place].word.load(std::memory_order_acquire) == kProducers) return std::nullopt;
    std::optional<Message> message = std::exchange(slots_[place], std::nullopt);
    words_[place].word.store(kProducers, kStore);
    place = place + 1 == kSlots ? 0 : place + 1;
    return message;
  }

 private:
  Word words_[kSlots];
  std::optional<Message> slots_[kSlots];
};

using Clock = std::chrono::steady_clock;

template <typename Queue>
double on_one_thread(uint64_t messages) {
  auto queue = std::make_unique<Queue>();
  size_t tail = 0, head = 0;
  uint64_t sum = 0;
  auto began = Clock::now();
  for (uint64_t at = 0; at < messages; at++) {
    Message message{at, 0, {}, nullptr};
    if (!queue->push(tail, message)) abort();
    auto popped = queue->pop(head);
    if (!popped) abort();
    sum += popped->timestamp;
  }
  std::chrono::duration<double, std::nano> took = Clock::now() - began;
  if (sum != messages * (messages - 1) / 2) abort();
  return took.count() / messages;
}

template <typename Queue>
double between_threads(uint64_t messages) {
  auto queue = std::make_unique<Queue>();
  auto began = Clock::now();
  std::thread producer([&] {
    size_t tail = 0;
    for (uint64_t at = 0; at < messages; at++) {
      Message message{at, 0, {}, nullptr};
      while (!queue->push(tail, message)) {
      }
    }
  });
  size_t head = 0;
  for (uint64_t at = 0; at < messages;) {
    auto popped = queue->pop(head);
    if (!popped) continue;
    if (popped->timestamp != at) abort();
    at++;
  }
  producer.join();
  std::chrono::duration<double, std::nano> took = Clock::now() - began;
  return took.count() / messages;
}

template <typename Queue>
void measure(const char *what, uint64_t messages) {
  double one = 1e9, two = 1e9;
  for (int round = 0; round < 5; round++) {
    double took = on_one_thread<Queue>(messages);
    if (took < one) one = took;
    took = between_threads<Queue>(messages);
    if (took < two) two = took;
  }
  printf("%-46s one thread %6.1f ns, two threads %6.1f ns a message\n", what, one, two);
}

int main(int, char **words) {
  uint64_t messages = words[1] ? strtoull(words[1], nullptr, 10) : 5000000;
  constexpr auto seq_cst = std::memory_order_seq_cst, release = std::memory_order_release;
  measure<SlotQueue<SideBySide, seq_cst>>("sequentially consistent, words side by side", messages);
  measure<SlotQueue<OwnLine, seq_cst>>("sequentially consistent, a cache line a word", messages);
  measure<SlotQueue<SideBySide, release>>("release, words side by side", messages);
  measure<SlotQueue<OwnLine, release>>("release, a cache line a word", messages);
}
