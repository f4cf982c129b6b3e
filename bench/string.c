#include "text.h"

int main(int count, char **words) {
  read_file(words[count - 1]);
  put_string(0);
  put("\n");
  return 0;
}
