#include "text.h"

int main(int count, char **words) {
  size_t at = 0;
  read_file(words[count - 1]);
  put("[");
  while (at < length) {
    if (at) put(",");
    at = put_string(at);
  }
  put("]\n");
  return 0;
}
