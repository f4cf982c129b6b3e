#include "text.h"

static void put_field(const char *before, uint64_t number, const char *suffix) {
  put(before);
  put_number(number);
  put(suffix);
}

int main(int count, char **words) {
  size_t at = 0;
  read_file(words[count - 1]);
  put("[");
  while (at < length) {
    if (at) put(",");
    switch (bytes[at]) {
    case 1:
      put_field("Item {small=Small {tag=1UB,x=", number_at(at + 1, 2), "UH}}");
      at += 3;
      break;
    case 2:
      put_field("Item {large=Large {tag=2UB,x=", number_at(at + 1, 4), "U}}");
      at += 5;
      break;
    default:
      put_field("Item {pair=Pair {tag=3UB,x=", bytes[at + 1], "UB");
      put_field(",y=", bytes[at + 2], "UB}}");
      at += 3;
    }
  }
  put("]\n");
  return 0;
}
