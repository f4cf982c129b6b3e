#include "text.h"

static size_t at;

static void put_level(int level) {
  if (!level) {
    put_number(bytes[at++]);
    put("UB");
    return;
  }
  put("T");
  put_number((uint64_t)level);
  put(" {a=");
  put_level(level - 1);
  put(",b=");
  put_level(level - 1);
  put("}");
}

int main(int count, char **words) {
  int level = 0;
  read_file(words[count - 1]);
  while ((size_t)1 << level < length) level++;
  put_level(level);
  put("\n");
  return 0;
}
