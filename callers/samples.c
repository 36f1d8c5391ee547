/* Calls the C library on the samples of document 01 and on the sheets of sheets/, and compares all that it writes. Run it from the
   repository's root; tests/c builds it. */
#include <stdio.h>
#include <stdlib.h>
#include <string.h>

#include "sorbitanque.h"

enum { ROOM = 200, BEYOND = 64, NUMBERS = 9, UNTOUCHED = 2000000011 };

static uint32_t workspace[SORBITANQUE_WORKSPACE + BEYOND];
static uint32_t room[ROOM];
static uint32_t details[SORBITANQUE_DETAILS];
static uint32_t numbers[NUMBERS];
static uint8_t text[40000];
static unsigned as_wanted, other;

/* Fills all that is lent with a number that no reply has. */
static void lend(void) {
  for (size_t i = 0; i < SORBITANQUE_WORKSPACE + BEYOND; i++) workspace[i] = UNTOUCHED;
  for (size_t i = 0; i < ROOM; i++) room[i] = UNTOUCHED;
  for (size_t i = 0; i < SORBITANQUE_DETAILS; i++) details[i] = UNTOUCHED;
  for (size_t i = 0; i < NUMBERS; i++) numbers[i] = UNTOUCHED;
}

/* Whether `count` numbers are all n. */
static int all(const uint32_t *numbers, size_t count, uint32_t n) {
  for (size_t i = 0; i < count; i++)
    if (numbers[i] != n) return 0;
  return 1;
}

/* Counts one run: what was written of `size` numbers, the first numbers of the room with the rest untouched, and the workspace of a length. */
static void compare_all(const char *name, const uint32_t *got, size_t size, const uint32_t *wanted, const uint32_t *listed, size_t count, size_t workspace_length) {
  size_t cleared = workspace_length < SORBITANQUE_WORKSPACE ? 0 : SORBITANQUE_WORKSPACE;
  int good = memcmp(got, wanted, size * sizeof *got) == 0
      && (count == 0 || memcmp(room, listed, count * sizeof *room) == 0)
      && all(room + count, ROOM - count, UNTOUCHED)
      && all(workspace, cleared, 0)
      && all(workspace + cleared, SORBITANQUE_WORKSPACE + BEYOND - cleared, UNTOUCHED);
  if (good) {
    as_wanted++;
    return;
  }
  other++;
  printf("c: other: %s: wanted", name);
  for (size_t i = 0; i < size; i++) printf(" %u", (unsigned)wanted[i]);
  printf(", got");
  for (size_t i = 0; i < size; i++) printf(" %u", (unsigned)got[i]);
  printf("\n");
}

/* Counts one run by its details. */
static void compare(const char *name, const uint32_t *wanted, const uint32_t *listed, size_t count, size_t workspace_length) {
  compare_all(name, details, SORBITANQUE_DETAILS, wanted, listed, count, workspace_length);
}

/* Reads a sheet of sheets/ into the text and returns its length. */
static size_t sheet(const char *name) {
  char path[300];
  snprintf(path, sizeof path, "sheets/%s", name);
  FILE *file = fopen(path, "rb");
  if (file == NULL) {
    fprintf(stderr, "c: no %s\n", path);
    exit(2);
  }
  size_t length = fread(text, 1, sizeof text, file);
  fclose(file);
  return length;
}

static void judge(const char *name, size_t length, size_t workspace_length, const uint32_t *wanted) {
  lend();
  sorbitanque_judge(text, length, workspace, workspace_length, details);
  compare(name, wanted, NULL, 0, workspace_length);
}

static void counts(const char *name, size_t length, size_t workspace_length, const uint32_t *wanted) {
  lend();
  sorbitanque_counts(text, length, workspace, workspace_length, numbers);
  compare_all(name, numbers, NUMBERS, wanted, NULL, 0, workspace_length);
}

static void play(const char *name, const uint32_t *moves, size_t moves_length, size_t room_length, const uint32_t *wanted, const uint32_t *answers) {
  size_t length = sheet(name);
  lend();
  sorbitanque_play(text, length, moves, moves_length, room, room_length, workspace, SORBITANQUE_WORKSPACE + BEYOND, details);
  compare(name, wanted, answers, wanted[5], SORBITANQUE_WORKSPACE + BEYOND);
}

static void outcome(const char *name, uint32_t number, size_t room_length, const uint32_t *wanted, const uint32_t *cells) {
  size_t length = sheet(name);
  lend();
  sorbitanque_outcome(text, length, number, room, room_length, workspace, SORBITANQUE_WORKSPACE, details);
  compare(name, wanted, cells, wanted[4], SORBITANQUE_WORKSPACE);
}

#define LIST(...) (const uint32_t[]){__VA_ARGS__}

/* Every sheet of sheets/expected. */
static void judge_sheets(void) {
  FILE *expected = fopen("sheets/expected", "r");
  char name[200];
  uint32_t w[SORBITANQUE_DETAILS];
  if (expected == NULL) exit(2);
  while (fscanf(expected, "%199s %u %u %u %u %u %u %u", name, &w[0], &w[1], &w[2], &w[3], &w[4], &w[5], &w[6]) == 8) {
    judge(name, sheet(name), SORBITANQUE_WORKSPACE, w);
    judge(name, sheet(name), SORBITANQUE_WORKSPACE + BEYOND, w);
    judge(name, sheet(name), SORBITANQUE_WORKSPACE - 1, LIST(1, 0, 0, 0, 0, 0, 0));
  }
  fclose(expected);
}

/* Every sheet of sheets/expected_counts. */
static void count_sheets(void) {
  FILE *expected = fopen("sheets/expected_counts", "r");
  char name[200];
  uint32_t w[NUMBERS];
  if (expected == NULL) exit(2);
  while (fscanf(expected, "%199s %u %u %u %u %u %u %u %u %u", name, &w[0], &w[1], &w[2], &w[3], &w[4], &w[5], &w[6], &w[7], &w[8]) == 10) {
    counts(name, sheet(name), SORBITANQUE_WORKSPACE, w);
    counts(name, sheet(name), SORBITANQUE_WORKSPACE + BEYOND, w);
    counts(name, sheet(name), SORBITANQUE_WORKSPACE - 1, LIST(1, 0, 0, 0, 0, 0, 0, 0, 0));
  }
  fclose(expected);
}

/* No text, and text that is too long. */
static void judge_bounds(void) {
  memset(text, 0, sizeof text);
  judge("empty text", 0, SORBITANQUE_WORKSPACE, LIST(3, 1, 0, 0, 0, 0, 0));
  judge("32,768 bytes", 32768, SORBITANQUE_WORKSPACE, LIST(3, 1, 0, 0, 0, 0, 0));
  judge("32,769 bytes", 32769, SORBITANQUE_WORKSPACE, LIST(2, 0, 0, 0, 0, 0, 0));
  judge("no workspace", 32769, 0, LIST(1, 0, 0, 0, 0, 0, 0));
  counts("empty text", 0, SORBITANQUE_WORKSPACE, LIST(3, 1, 0, 0, 0, 0, 0, 0, 0));
  counts("32,768 bytes", 32768, SORBITANQUE_WORKSPACE, LIST(3, 1, 0, 0, 0, 0, 0, 0, 0));
  counts("32,769 bytes", 32769, SORBITANQUE_WORKSPACE, LIST(2, 0, 0, 0, 0, 0, 0, 0, 0));
  counts("no workspace", 32769, 0, LIST(1, 0, 0, 0, 0, 0, 0, 0, 0));
}

static void plays(void) {
  play("p1", LIST(3), 1, ROOM, LIST(0, 0, 0, 0, 0, 1, 1), LIST(4));
  play("p1", LIST(3, 1), 2, ROOM, LIST(15, 0, 0, 0, 2, 0, 0), NULL);
  play("p8", LIST(2, 5, 1), 3, 3, LIST(0, 0, 0, 0, 0, 3, 1), LIST(3, 4, 6));
  play("p1", LIST(1), 1, 1, LIST(0, 0, 0, 0, 0, 1, 1), LIST(3));
  play("p1", LIST(2), 1, 1, LIST(17, 0, 0, 0, 1, 0, 0), NULL);
  play("p1", LIST(5), 1, 1, LIST(16, 0, 0, 0, 1, 0, 0), NULL);
  play("p1", LIST(0), 1, 1, LIST(16, 0, 0, 0, 1, 0, 0), NULL);
  play("p6", LIST(0), 0, 0, LIST(0, 0, 0, 0, 0, 0, 1), NULL);
  play("p8", LIST(0), 0, 0, LIST(0, 0, 0, 0, 0, 0, 0), NULL);
  play("p8", LIST(2, 2), 2, ROOM, LIST(17, 0, 0, 0, 2, 0, 0), NULL);
  play("p8", LIST(2, 5, 1), 3, 2, LIST(14, 0, 0, 0, 0, 0, 0), NULL);
  play("p2", LIST(3), 1, 0, LIST(13, 0, 0, 1, 0, 0, 0), NULL);
  play("p4", LIST(3), 1, 1, LIST(10, 2, 2, 0, 0, 0, 0), NULL);
  play("branch_twice", LIST(1), 1, 0, LIST(24, 32, 0, 0, 0, 0, 0), NULL);
  play("spare", LIST(8), 1, 1, LIST(0, 0, 0, 0, 0, 1, 1), LIST(6));
  play("spare19", LIST(11), 1, 1, LIST(0, 0, 0, 0, 0, 1, 1), LIST(351));
}

static void outcomes(void) {
  outcome("p1", 0, 2, LIST(0, 0, 0, 0, 2, 0, 0), LIST(2, 3));
  outcome("p1", 1, ROOM, LIST(0, 0, 0, 0, 2, 0, 0), LIST(2, 4));
  outcome("p1", 2, ROOM, LIST(18, 0, 0, 0, 0, 0, 0), NULL);
  outcome("p1", 2, 0, LIST(18, 0, 0, 0, 0, 0, 0), NULL);
  outcome("p1", 4294967295u, ROOM, LIST(18, 0, 0, 0, 0, 0, 0), NULL);
  outcome("p1", 1, 1, LIST(14, 0, 0, 0, 0, 0, 0), NULL);
  outcome("p8", 0, 3, LIST(0, 0, 0, 0, 3, 0, 0), LIST(1, 2, 4));
  outcome("p8", 5, 3, LIST(0, 0, 0, 0, 3, 0, 0), LIST(3, 4, 6));
  outcome("p8", 7, 3, LIST(0, 0, 0, 0, 3, 0, 0), LIST(3, 5, 6));
  outcome("p8", 8, 3, LIST(18, 0, 0, 0, 0, 0, 0), NULL);
  outcome("p8", 7, 2, LIST(14, 0, 0, 0, 0, 0, 0), NULL);
  outcome("p2", 1, 2, LIST(0, 0, 0, 0, 2, 0, 0), LIST(1, 4));
  outcome("p7", 0, 0, LIST(0, 0, 0, 0, 0, 0, 0), NULL);
  outcome("p3", 0, ROOM, LIST(11, 3, 3, 0, 0, 0, 0), NULL);
  outcome("branch_twice", 0, 0, LIST(24, 32, 0, 0, 0, 0, 0), NULL);
  outcome("seventeen_waits", 0, ROOM, LIST(12, 0, 0, 0, 0, 0, 0), NULL);
  outcome("spare", 1, 2, LIST(0, 0, 0, 0, 2, 0, 0), LIST(2, 7));
  outcome("spare", 2, 2, LIST(18, 0, 0, 0, 0, 0, 0), NULL);
  outcome("spare_many", 1, 2, LIST(0, 0, 0, 0, 2, 0, 0), LIST(2, 21));
  outcome("spare_many", 2, 2, LIST(18, 0, 0, 0, 0, 0, 0), NULL);
}

int main(void) {
  judge_sheets();
  count_sheets();
  judge_bounds();
  plays();
  outcomes();
  printf("c: %u runs as they should be, %u not\n", as_wanted, other);
  return other != 0 || as_wanted == 0;
}
