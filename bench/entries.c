#include "text.h"

int main(int count, char **words) {
  read_file(words[count - 1]);
  put("[");
  for (size_t at = 0; at + 14 <= length; at += 14) {
    put(at ? ",Entry {name=[" : "Entry {name=[");
    for (size_t i = 0; i < 8; i++) {
      if (i) put(",");
      put_number(bytes[at + i]);
      put("UB");
    }
    put("],size=");
    put_number(number_at(at + 8, 4));
    put("U,kind=");
    put_number(number_at(at + 12, 2));
    put("UH}");
  }
  put("]\n");
  return 0;
}
