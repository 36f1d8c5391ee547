/* Calls one entry of the C library on the sheet of standard input and prints the details, or the nine numbers of counts. All that it lends is static, so that
   its stack is the entry's and little more. Arguments: judge; counts; play and the opponent's cells; outcome and a number; or none, which calls no entry. */
#include <stdio.h>
#include <stdlib.h>
#include <string.h>
#include <unistd.h>

#include "sorbitanque.h"

enum { MOVES = 400, NUMBERS = 9 };

static uint8_t text[40000];
static uint32_t workspace[SORBITANQUE_WORKSPACE];
static uint32_t room[MOVES];
static uint32_t moves[MOVES];
static uint32_t written[NUMBERS];

/* Reads standard input into the text and returns its length. */
static size_t sheet(void) {
  size_t length = 0;
  ssize_t got;
  while ((got = read(STDIN_FILENO, text + length, sizeof text - length)) > 0) length += (size_t)got;
  return length;
}

/* Takes the numbers after the entry's name as moves and returns how many there are. */
static size_t numbers(int count, char **arguments) {
  size_t taken = 0;
  for (int i = 2; i < count && taken < MOVES; i++) moves[taken++] = (uint32_t)strtoul(arguments[i], NULL, 10);
  return taken;
}

int main(int count, char **arguments) {
  const char *entry = count < 2 ? "" : arguments[1];
  size_t printed = strcmp(entry, "counts") == 0 ? NUMBERS : SORBITANQUE_DETAILS;
  size_t length = sheet();
  size_t taken = numbers(count, arguments);
  if (strcmp(entry, "judge") == 0)
    sorbitanque_judge(text, length, workspace, SORBITANQUE_WORKSPACE, written);
  else if (strcmp(entry, "counts") == 0)
    sorbitanque_counts(text, length, workspace, SORBITANQUE_WORKSPACE, written);
  else if (strcmp(entry, "play") == 0)
    sorbitanque_play(text, length, moves, taken, room, MOVES, workspace, SORBITANQUE_WORKSPACE, written);
  else if (strcmp(entry, "outcome") == 0)
    sorbitanque_outcome(text, length, moves[0], room, MOVES, workspace, SORBITANQUE_WORKSPACE, written);
  else if (strcmp(entry, "none") != 0)
    return 2;
  for (size_t i = 0; i < printed; i++) printf("%u%c", (unsigned)written[i], i + 1 < printed ? ' ' : '\n');
  return 0;
}
