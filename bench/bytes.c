#include "text.h"

int main(int count, char **words) {
  read_file(words[count - 1]);
  put("[");
  for (size_t at = 0; at < length; at++) {
    if (at) put(",");
    put_number(bytes[at]);
    put("UB");
  }
  put("]\n");
  return 0;
}
