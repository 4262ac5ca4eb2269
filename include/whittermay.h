/* Whittermay: answers a question from a book of rules.
 *
 * One function, in target/staticlib/libcapi.a (made by `./archive`, for x86-64 Linux). It keeps nothing between calls, allocates nothing, reads and
 * writes only what it is lent, and always returns. Two calls at the same time are safe if they share no workspace, buffer or reply.
 *
 * What is proved of it, in crates/capi: the six numbers of the reply, every word of the workspace and every byte of the buffer are those of the definition
 * `call`, for every book and for arguments of any value and length. */
#ifndef WHITTERMAY_H
#define WHITTERMAY_H

#include <stddef.h>
#include <stdint.h>

#ifdef __cplusplus
extern "C" {
#endif

/* The workspace has exactly this many words. */
#define WHITTERMAY_WORKSPACE_WORDS 16384
/* A book has at most this many bytes, and so has an answer buffer. */
#define WHITTERMAY_MOST_BYTES 65536
/* At most this many answers can be wanted. */
#define WHITTERMAY_MOST_WANTED 64
/* An answer record has this many bytes. */
#define WHITTERMAY_ANSWER_RECORD 8

/* What each place of `reply` holds. A number that does not apply is 0: a refused call has only the first two, an accepted one only the last four. */
enum whittermay_reply {
    WHITTERMAY_REFUSAL = 0, /* 0 if the call is accepted, else which test refused it */
    WHITTERMAY_RECORD = 1,  /* the record that was refused: the lowest one that fails the test; 0 for tests 1 and 2 */
    WHITTERMAY_ENDING = 2,  /* how the run ended */
    WHITTERMAY_ANSWERS = 3, /* how many answers were given */
    WHITTERMAY_ASSUMED = 4, /* how many of them rest on a supposition */
    WHITTERMAY_UNITS = 5    /* how many units of work were done */
};

/* The refusals. Tests run in this order, each over the whole book before the next. */
enum whittermay_refusal {
    WHITTERMAY_ACCEPTED = 0,
    WHITTERMAY_ROOM = 1,   /* not 16,384 words of workspace; an answer buffer over 65,536 bytes or no multiple of 8; wanted not 1 to 64 */
    WHITTERMAY_SIZE = 2,   /* the book is empty, over 65,536 bytes, or no multiple of 16 */
    WHITTERMAY_KIND = 3,   /* a kind that is not 1 to 10; a last record that is no question; a question elsewhere */
    WHITTERMAY_FIELD = 4,  /* a value outside its range, an unlisted field that is not 0, a pointer or run not wholly below its own record */
    WHITTERMAY_TARGET = 5, /* a pointer or run at records of the wrong kind */
    WHITTERMAY_TREE = 6,   /* a record, other than the last, that is not pointed at exactly once */
    WHITTERMAY_SCOPE = 7   /* a variable or tie whose offset is not below its holder's number of variables, or a tie that repeats one, or is not allowed */
};

/* The endings. 0 says that there are no other answers; 2 to 6 say that there may be, and which limit was met. */
enum whittermay_ending {
    WHITTERMAY_COMPLETE = 0,  /* the search is complete */
    WHITTERMAY_ENOUGH = 1,    /* as many answers as wanted were given */
    WHITTERMAY_BUDGET = 2,    /* the budget is spent */
    WHITTERMAY_GOALS = 3,     /* a goal would be the 513th taken on a branch */
    WHITTERMAY_VARIABLES = 4, /* more than 2,048 variables on a branch */
    WHITTERMAY_LISTS = 5,     /* more than 256 pairs, terms looked at or terms being written at once */
    WHITTERMAY_BUFFER = 6     /* no place in the answer buffer for a record */
};

/* Runs the question of a book.
 *
 * book, book_len              the book: records of 16 bytes, each eight u16, low byte first. It is only read.
 * budget                      at most this many units are done. Any number is allowed.
 * wanted                      the run ends when this many answers are given, 1 to 64.
 * workspace, workspace_words  16,384 words to work in; what they hold before is of no matter.
 * out, out_len                the answer buffer: a multiple of 8 bytes, 0 to 65,536; what it holds before is of no matter.
 * reply                       six numbers, see enum whittermay_reply.
 *
 * Afterwards
 *   accepted          the workspace is all zero. The buffer starts with the answer records, in order, and the rest of it is zero. A record is four u16,
 *                     low byte first: the answer's number from 0; 1 for an open variable or 2 for a term; the variable's number or the symbol; the
 *                     argument count. Each answer has the value of each unknown in order, a symbol before its arguments, its open variables numbered
 *                     0 up by first appearance in that answer. An answer that meets limit 5 or 6 while it is written leaves no bytes and is not counted.
 *   refused by test 1 the workspace and the buffer are as they were.
 *   refused otherwise the workspace is all zero, the buffer is as it was.
 *
 * What the caller owes: each pointer is aligned for its type and is valid for as many elements as its length says (for a length of 0 it may be anything but
 * NULL); workspace, out and reply overlap nothing else that is passed. */
void whittermay_solve(const uint8_t *book, size_t book_len, uint32_t budget, uint32_t wanted, uint32_t *workspace, size_t workspace_words, uint8_t *out,
                      size_t out_len, uint32_t reply[6]);

#ifdef __cplusplus
}
#endif

#endif
