#include "text.h"

static void put_point(size_t at) {
  put("Point {x=");
  put_number(bytes[at]);
  put("UB,y=");
  put_number(bytes[at + 1]);
  put("UB}");
}

int main(int count, char **words) {
  read_file(words[count - 1]);
  put("[");
  for (size_t at = 0; at + 6 <= length; at += 6) {
    put(at ? ",Line {from=" : "Line {from=");
    put_point(at);
    put(",to=");
    put_point(at + 2);
    put(",width=");
    put_number(number_at(at + 4, 2));
    put("UH}");
  }
  put("]\n");
  return 0;
}
