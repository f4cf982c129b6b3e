/* What the C programs share: the file read whole, and text written byte by byte to standard output. */
#include <stdint.h>
#include <stdio.h>
#include <stdlib.h>
#include <sys/stat.h>

static uint8_t *bytes;
static size_t length;

static void read_file(const char *path) {
  struct stat about;
  FILE *file = fopen(path, "rb");
  if (!file || fstat(fileno(file), &about)) exit(2);
  length = (size_t)about.st_size;
  bytes = malloc(length + 1);
  if (!bytes || fread(bytes, 1, length, file) != length) exit(2);
  fclose(file);
}

static void put(const char *text) {
  while (*text) putchar_unlocked(*text++);
}

static void put_number(uint64_t number) {
  char digits[20];
  int count = 0;
  do {
    digits[count++] = (char)('0' + number % 10);
    number /= 10;
  } while (number);
  while (count) putchar_unlocked(digits[--count]);
}

/* A number of so many bytes, the first one the highest. */
static uint64_t number_at(size_t at, int count) {
  uint64_t number = 0;
  while (count--) number = number << 8 | bytes[at++];
  return number;
}

/* The bytes up to the 0, in quotes; the files have no bytes that need an escape. Returns the place after the 0. */
static size_t put_string(size_t at) {
  putchar_unlocked('"');
  while (bytes[at]) putchar_unlocked(bytes[at++]);
  putchar_unlocked('"');
  return at + 1;
}
