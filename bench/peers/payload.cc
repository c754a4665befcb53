// Google's C++ protobuf on the same payloads: a message of its own in each round, as ours.
#include <cstddef>
#include <cstdint>
#include <string>

#include "payload.pb.h"

extern "C" uint64_t cpp_payload_decode(const uint8_t* bytes, size_t length, uint64_t rounds) {
  uint64_t sum = 0;
  for (uint64_t round = 0; round < rounds; round++) {
    Payload payload;
    if (payload.ParseFromArray(bytes, static_cast<int>(length))) sum += payload.metrics_size();
  }
  return sum;
}

extern "C" uint64_t cpp_payload_encode(const uint8_t* bytes, size_t length, uint64_t rounds) {
  Payload payload;
  if (!payload.ParseFromArray(bytes, static_cast<int>(length))) return 0;
  uint64_t sum = 0;
  for (uint64_t round = 0; round < rounds; round++) {
    std::string text;
    if (payload.SerializeToString(&text)) sum += text.size();
  }
  return sum;
}
