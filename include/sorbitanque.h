/* sorbitanque: judges Hex strategy sheets, plays them and lists their outcomes. Link libsorbitanque.a (`./build sorbitanque`). */
#ifndef SORBITANQUE_H
#define SORBITANQUE_H

#include <stddef.h>
#include <stdint.h>

#ifdef __cplusplus
extern "C" {
#endif

/* The first number of the details. */
enum sorbitanque_verdict {
  /* 0: The sheet is accepted, or the play or the outcome is done. */
  SORBITANQUE_DONE = 0,
  /* 1: The workspace has fewer than 8,192 numbers. */
  SORBITANQUE_SMALL_WORKSPACE = 1,
  /* 2: The text has more than 32,768 bytes. */
  SORBITANQUE_LONG_TEXT = 2,
  /* 3: Line 1 is not a header; the line is 1. */
  SORBITANQUE_BAD_HEADER = 3,
  /* 4: A node line or a set-up line is malformed, of the wrong kind, or without its line feed; the line tells which. */
  SORBITANQUE_BAD_LINE = 4,
  /* 5: A cell is off the board; the line tells where. */
  SORBITANQUE_OFF_BOARD = 5,
  /* 6: A 2,049th node line begins while the tree is unfinished; the line is that one. */
  SORBITANQUE_TOO_MANY_NODES = 6,
  /* 7: A node stands at depth 129; the line tells which. */
  SORBITANQUE_TOO_DEEP = 7,
  /* 8: The text ends and the tree is unfinished; the line is the missing one. */
  SORBITANQUE_UNFINISHED = 8,
  /* 9: Text remains after the tree; the line is where it begins. */
  SORBITANQUE_TEXT_AFTER = 9,
  /* 10: The sheet is not apart; the line is the first faulty move's and the cell its smallest faulty cell. */
  SORBITANQUE_NOT_APART = 10,
  /* 11: The sheet is not elusive; the line is the first faulty wait's and the cell its smallest faulty cell. */
  SORBITANQUE_NOT_ELUSIVE = 11,
  /* 12: The sheet has more than 65,536 outcomes of live moves. */
  SORBITANQUE_TOO_MANY_OUTCOMES = 12,
  /* 13: An outcome does not join; the index is the smallest number of such an outcome. */
  SORBITANQUE_NOT_JOINED = 13,
  /* 14: The room for the answers or the cells is too short. */
  SORBITANQUE_SHORT_ROOM = 14,
  /* 15: Play was over before the move at the place. */
  SORBITANQUE_AFTER_OVER = 15,
  /* 16: The move at the place is 0 or above columns times rows. */
  SORBITANQUE_NO_SUCH_CELL = 16,
  /* 17: The cell of the move at the place is taken by either side. */
  SORBITANQUE_CELL_TAKEN = 17,
  /* 18: The number of the outcome is not below the count of outcomes. */
  SORBITANQUE_NO_SUCH_OUTCOME = 18,
  /* 19: A set-up line names a cell that one before it named; the line is its own and the cell that cell. */
  SORBITANQUE_SET_UP_TWICE = 19,
  /* 20: A move is on a set-up stone; the line is the first such move's and the cell its own. */
  SORBITANQUE_ON_SET_UP = 20,
  /* 24: A wait has two moves whose lines, with all lines under them, are the same; the line is the first such wait's, and there is no cell. */
  SORBITANQUE_SAME_BRANCH = 24
};

enum {
  /* How many numbers the workspace must have at least. */
  SORBITANQUE_WORKSPACE = 8192,
  /* How many numbers the details have. */
  SORBITANQUE_DETAILS = 7,
  /* How many numbers the details of counts have. */
  SORBITANQUE_COUNTS_DETAILS = 9
};

/* The places of the details. */
enum {
  SORBITANQUE_VERDICT = 0,
  SORBITANQUE_LINE = 1,
  SORBITANQUE_CELL = 2,
  SORBITANQUE_INDEX = 3,
  /* of judge and of counts */
  SORBITANQUE_MOVES = 4,
  SORBITANQUE_WAITS = 5,
  SORBITANQUE_OUTCOMES = 6,
  /* of counts */
  SORBITANQUE_PASSED = 7,
  SORBITANQUE_IDLE = 8,
  /* of play */
  SORBITANQUE_PLACE = 4,
  SORBITANQUE_ANSWERS = 5,
  SORBITANQUE_OVER = 6,
  /* of outcome; the two places after it are 0 */
  SORBITANQUE_CELLS = 4
};

/* What each function asks of its caller, and what it leaves:
   - The archive is x86-64 code for Linux and links into x86-64 programs alone.
   - Pointers are not null, even where a length is 0. Those to numbers are aligned as uint32_t is; the sheet's needs no alignment.
   - Each `_length` counts the bytes or the numbers that its pointer leads to.
   - What a function may write (room, workspace, details) overlaps nothing else that it is given. Sheet and moves are only read, and may overlap.
   - No function keeps anything between calls or has memory of its own but the stack: calls may run side by side, in threads or in a signal handler, as
     long as each has a room, a workspace and details of its own.
   - Of the ten sheets measured (docs/FIGURES.md), one of depth 127 and one with 141 choices in an outcome among them, none took a call more than 68 KB of
     stack; no bound is proved. Give it 128 KB.
   - All details, seven or in counts nine, are written by every call; line, cell and index are 0 where the verdict's sentence does not name them.
   - The first 8,192 numbers of the workspace are 0 after every call and the rest as it was; after verdict 1 all of it is as it was.
   - The room changes on verdict 0 alone, and only in as many first places as there are answers or cells. */

/* Judges a sheet; the details are verdict, line, cell, index, and the counts of moves, waits and outcomes, all three 0 on a refusal. */
void sorbitanque_judge(const uint8_t *sheet, size_t sheet_length,
                       uint32_t *workspace, size_t workspace_length,
                       uint32_t details[SORBITANQUE_DETAILS]);

/* Judges a sheet as sorbitanque_judge does; the details are judge's seven, and two counts more, both 0 on a refusal: passed, how many of the
   outcomes were passed over (their moves begin with moves whose stones joined already, in an outcome with a smaller number), and idle, how many of the
   moves aren't live (such a move is never given as an answer). */
void sorbitanque_counts(const uint8_t *sheet, size_t sheet_length,
                        uint32_t *workspace, size_t workspace_length,
                        uint32_t details[SORBITANQUE_COUNTS_DETAILS]);

/* Plays an accepted sheet against a list of opponent cell numbers and writes the answers into the room; the details are verdict,
   line, cell, index, the place of the refused move (from 1, else 0), the number of answers, and 1 where play is over, else 0. */
void sorbitanque_play(const uint8_t *sheet, size_t sheet_length,
                      const uint32_t *moves, size_t moves_length,
                      uint32_t *room, size_t room_length,
                      uint32_t *workspace, size_t workspace_length,
                      uint32_t details[SORBITANQUE_DETAILS]);

/* Writes the cells of the outcome with a number, counted from 0, and the own set-up stones into the room in ascending order; the details are verdict, line,
   cell, index, the number of cells (0 on a refusal), 0 and 0. */
void sorbitanque_outcome(const uint8_t *sheet, size_t sheet_length,
                         uint32_t number,
                         uint32_t *room, size_t room_length,
                         uint32_t *workspace, size_t workspace_length,
                         uint32_t details[SORBITANQUE_DETAILS]);

#ifdef __cplusplus
}
#endif

#endif
