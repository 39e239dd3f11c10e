// Counts what a capture of version 1 carried, in C++. The class Receiver frees itself.
//
//     counts FILE.tmc
//
// Exit status: 0; 2 if the file cannot be read; 3 if it is not a whole capture of version 1.
#include <algorithm>
#include <array>
#include <cstdint>
#include <fstream>
#include <iostream>
#include <iterator>
#include <stdexcept>
#include <vector>

#include <vabgrot.h>

namespace {

class Receiver {
public:
  Receiver() : handle_ VABGROT_INIT, events_(VABGROT_QUICK_EVENTS), bytes_(VABGROT_QUICK_BYTES) {
    if (vabgrot_open(&handle_, VABGROT_LINK) != VABGROT_OK) throw std::runtime_error("no memory");
  }
  ~Receiver() { vabgrot_close(&handle_); }
  Receiver(const Receiver &) = delete;
  Receiver &operator=(const Receiver &) = delete;

  // Feeds `size` bytes of each lane, and calls `take` with each event and its data.
  template <typename Take> void feed(std::array<const std::uint8_t *, 3> lanes, std::size_t size, Take take) {
    while (size > 0) {
      const vabgrot_bits bits = {8 * size, 8 * size, 8 * size};
      const int status = vabgrot_feed(&handle_, lanes[0], size, lanes[1], size, lanes[2], size, &bits, events_.data(), events_.size(),
                                      bytes_.data(), bytes_.size(), &answer_);
      if (status != VABGROT_OK && status != VABGROT_FULL) throw std::runtime_error("feed");
      report(take);
      const std::size_t taken = answer_.taken.blue / 8;
      for (auto &lane : lanes) lane += taken;
      size -= taken;
    }
  }

  // Ends the lanes, and returns how many columns they had.
  template <typename Take> std::uint64_t finish(Take take) {
    if (vabgrot_finish(&handle_, events_.data(), events_.size(), bytes_.data(), bytes_.size(), &answer_) != VABGROT_OK) {
      throw std::runtime_error("finish");
    }
    report(take);
    return answer_.columns;
  }

private:
  template <typename Take> void report(Take take) const {
    for (std::uint64_t i = 0; i < answer_.events; i++) take(events_[i], bytes_.data() + events_[i].offset);
  }

  vabgrot handle_;
  vabgrot_answer answer_ = vabgrot_answer();
  std::vector<vabgrot_event> events_;
  std::vector<std::uint8_t> bytes_;
};

struct Counts {
  std::uint64_t runs = 0, lines = 0, pixels = 0, packets = 0, faults = 0;

  void take(const vabgrot_event &event) {
    runs += event.kind == VABGROT_RUN;
    lines += event.kind == VABGROT_LINE;
    pixels += event.kind == VABGROT_LINE ? event.size / 3 : 0;
    packets += event.kind == VABGROT_PACKET;
    faults += event.kind >= VABGROT_WORD;
  }
};

const std::size_t HEADER = 8, BLOCK = 4096;

// The number of bits of each lane, if these bytes are a whole capture of version 1. Otherwise false.
bool is_whole(const std::vector<std::uint8_t> &data, std::size_t &bits) {
  if (data.size() < HEADER || data[0] != 'T' || data[1] != 'M' || data[2] != 'C' || data[3] != '1') return false;
  bits = std::size_t(data[4]) << 24 | std::size_t(data[5]) << 16 | std::size_t(data[6]) << 8 | data[7];
  return data.size() == HEADER + 3 * ((bits + 7) / 8);
}

} // namespace

int main(int count, char **words) {
  std::ifstream file(count == 2 ? words[1] : "", std::ios::binary);
  if (!file) {
    std::cerr << "usage: counts FILE.tmc\n";
    return 2;
  }
  const std::vector<std::uint8_t> data((std::istreambuf_iterator<char>(file)), std::istreambuf_iterator<char>());
  std::size_t bits = 0;
  if (!is_whole(data, bits)) {
    std::cerr << words[1] << ": not a whole capture of version 1\n";
    return 3;
  }
  Receiver receiver;
  Counts counts;
  const auto take = [&counts](const vabgrot_event &event, const std::uint8_t *) { counts.take(event); };
  const std::size_t all = (bits + 7) / 8;  // bytes of a lane
  for (std::size_t at = 0; at < bits / 8;) {  // the bits after the last whole byte are left out
    const std::size_t step = std::min(all - at, BLOCK), part = std::min(bits / 8 - at, BLOCK);
    const std::uint8_t *block = data.data() + HEADER + 3 * at;
    receiver.feed({{block, block + step, block + 2 * step}}, part, take);
    at += step;
  }
  const std::uint64_t columns = receiver.finish(take);
  std::cout << counts.runs << " runs, " << counts.lines << " line of " << counts.pixels << " pixel, " << counts.packets << " packets, "
            << counts.faults << " faults in " << columns << " columns\n";
}
