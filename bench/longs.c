#include "text.h"

int main(int count, char **words) {
  read_file(words[count - 1]);
  put("[");
  for (size_t at = 0; at + 8 <= length; at += 8) {
    if (at) put(",");
    put_number(number_at(at, 8));
    put("UL");
  }
  put("]\n");
  return 0;
}
