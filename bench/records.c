#include "text.h"

int main(int count, char **words) {
  read_file(words[count - 1]);
  put("[");
  for (size_t at = 0; at + 7 <= length; at += 7) {
    uint64_t size = number_at(at, 4);
    if (size >= 0xfffffff0) break;
    put(at ? ",Record {size=" : "Record {size=");
    put_number(size);
    put("U,kind=");
    put_number(number_at(at + 4, 2));
    put("UH,flags=");
    put_number(bytes[at + 6]);
    put("UB}");
  }
  put("]\n");
  return 0;
}
