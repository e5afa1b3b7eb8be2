// The limit that `cosim model` is measured against: one event loop with one heap, for the topologies of
// ../measure.sh alone. Nothing is read, checked or proved here.
//
//   events cable FRAMES STATIONS LATENCY    stations in pairs, each pair joined by a cable
//   events switch FRAMES 2 LATENCY          two stations at the ports of a switch
//
// Each station sends FRAMES frames of 60 bytes, one in 1,000 picoseconds, station i from 1,000 + 7 i on. It prints the
// joined log, byte for byte as `cosim model` does.
#include <algorithm>
#include <array>
#include <cstdint>
#include <cstdio>
#include <cstdlib>
#include <functional>
#include <memory>
#include <queue>
#include <string>
#include <tuple>
#include <unordered_map>
#include <utility>
#include <vector>

namespace {

using Address = std::array<uint8_t, 6>;
using Frame = std::vector<uint8_t>;

constexpr uint32_t due = UINT32_MAX;  // in place of a port: the station's own time has come

struct Event {
  uint64_t at;
  uint32_t component;
  uint32_t port;
  uint64_t number;
  std::unique_ptr<Frame> frame;

  // by time, component, port and order of sending; the heap wants the first on top
  bool operator<(const Event& other) const {
    return std::tie(at, component, port, number) > std::tie(other.at, other.component, other.port, other.number);
  }
};

struct Line {
  uint64_t at;
  std::string text;
};

struct Station {
  uint64_t first;
  uint32_t sent = 0;
};

struct Entry {
  uint32_t port;
  uint64_t at;
};

Address address_of(uint32_t station) { return {2, 0, 0, 0, 0, static_cast<uint8_t>(station + 1)}; }

uint64_t number_of(const uint8_t* address) {
  uint64_t number = 0;
  for (int i = 0; i < 6; i++) number = number << 8 | address[i];
  return number;
}

std::string text_of(const uint8_t* address) {
  char text[18];
  std::snprintf(text, sizeof text, "%02x:%02x:%02x:%02x:%02x:%02x", address[0], address[1], address[2], address[3],
                address[4], address[5]);
  return text;
}

class Model {
 public:
  Model(bool switched, uint32_t frames, uint32_t stations, uint64_t latency)
      : switched_(switched), frames_(frames), latency_(latency), hub_(stations), logs_(stations + 1) {
    for (uint32_t i = 0; i < stations; i++) stations_.push_back({1000 + 7ull * i});
  }

  void run() {
    for (uint32_t i = 0; i < stations_.size(); i++) put(stations_[i].first, i, due, nullptr);
    while (!heap_.empty()) {
      std::pop_heap(heap_.begin(), heap_.end());
      Event event = std::move(heap_.back());
      heap_.pop_back();
      if (event.component == hub_) {
        relay(event);
      } else if (event.port == due) {
        send(event);
      } else {
        log(event, "rx " + std::to_string(event.frame->size()));
      }
    }
  }

  std::string joined() const {
    using Head = std::pair<uint64_t, uint32_t>;
    std::priority_queue<Head, std::vector<Head>, std::greater<Head>> heads;
    std::vector<size_t> next(logs_.size());
    for (uint32_t i = 0; i < logs_.size(); i++) {
      if (!logs_[i].empty()) heads.push({logs_[i][0].at, i});
    }
    std::string text;
    while (!heads.empty()) {
      uint32_t i = heads.top().second;
      heads.pop();
      const Line& line = logs_[i][next[i]++];
      text += std::to_string(line.at);
      text += i == hub_ ? " s " : " c" + std::to_string(i) + " ";
      text += line.text;
      text += '\n';
      if (next[i] < logs_[i].size()) heads.push({logs_[i][next[i]].at, i});
    }
    return text;
  }

 private:
  void put(uint64_t at, uint32_t component, uint32_t port, std::unique_ptr<Frame> frame) {
    heap_.push_back({at, component, port, count_++, std::move(frame)});
    std::push_heap(heap_.begin(), heap_.end());
  }

  void log(const Event& event, std::string text) { logs_[event.component].push_back({event.at, std::move(text)}); }

  void send(const Event& event) {
    Station& station = stations_[event.component];
    auto frame = std::make_unique<Frame>(60, static_cast<uint8_t>(station.sent));
    Address to = address_of(event.component ^ 1), from = address_of(event.component);
    std::copy(to.begin(), to.end(), frame->begin());
    std::copy(from.begin(), from.end(), frame->begin() + 6);
    (*frame)[12] = 0x88;
    (*frame)[13] = 0xb5;
    log(event, "tx 60");
    if (switched_) {
      put(event.at + latency_, hub_, event.component, std::move(frame));
    } else {
      put(event.at + latency_, event.component ^ 1, 0, std::move(frame));
    }
    if (++station.sent < frames_) put(event.at + 1000, event.component, due, nullptr);
  }

  void relay(Event& event) {
    const uint8_t* bytes = event.frame->data();
    uint64_t to = number_of(bytes), from = number_of(bytes + 6);
    auto known = table_.find(from);
    if (known == table_.end() || known->second.port != event.port) {
      log(event, "learn " + text_of(bytes + 6) + " " + std::to_string(event.port));
    }
    table_[from] = {event.port, event.at};
    auto found = table_.find(to);
    if (found == table_.end()) {
      log(event, "flood");
      put(event.at + latency_, 1 - event.port, 0, std::move(event.frame));
    } else if (found->second.port == event.port) {
      log(event, "filter");
    } else {
      log(event, "forward " + std::to_string(found->second.port));
      put(event.at + latency_, found->second.port, 0, std::move(event.frame));
    }
  }

  bool switched_;
  uint32_t frames_;
  uint64_t latency_;
  uint32_t hub_;
  std::vector<Station> stations_;
  std::vector<std::vector<Line>> logs_;
  std::unordered_map<uint64_t, Entry> table_;
  std::vector<Event> heap_;
  uint64_t count_ = 0;
};

}  // namespace

int main(int argc, char** argv) {
  if (argc != 5) return 2;
  Model model(std::string(argv[1]) == "switch", static_cast<uint32_t>(std::atoi(argv[2])),
              static_cast<uint32_t>(std::atoi(argv[3])), std::strtoull(argv[4], nullptr, 10));
  model.run();
  std::string text = model.joined();
  return std::fwrite(text.data(), 1, text.size(), stdout) == text.size() ? 0 : 1;
}
