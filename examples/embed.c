/* Reads a book from standard input and prints its reply as the program `whittermay` does: how a C program embeds the library.
 *
 *   ./archive
 *   cc -Wall -Wextra -Iinclude examples/embed.c target/staticlib/libcapi.a -o target/embed
 *   target/embed < examples/fen.book */
#include <stdio.h>
#include <whittermay.h>

static uint8_t book[WHITTERMAY_MOST_BYTES + 1];
static uint32_t workspace[WHITTERMAY_WORKSPACE_WORDS];
static uint8_t out[4096];

static unsigned number(const uint8_t *at)
{
    return at[0] + 256u * at[1];
}

int main(void)
{
    uint32_t reply[6];
    size_t n = fread(book, 1, sizeof book, stdin);
    if (ferror(stdin)) {
        perror("standard input");
        return 1;
    }
    whittermay_solve(book, n, 1000000, 64, workspace, WHITTERMAY_WORKSPACE_WORDS, out, sizeof out, reply);
    if (reply[WHITTERMAY_REFUSAL] != WHITTERMAY_ACCEPTED) {
        printf("refused %u %u\n", (unsigned)reply[WHITTERMAY_REFUSAL], (unsigned)reply[WHITTERMAY_RECORD]);
        return 0;
    }
    printf("%u %u %u %u\n", (unsigned)reply[WHITTERMAY_ENDING], (unsigned)reply[WHITTERMAY_ANSWERS], (unsigned)reply[WHITTERMAY_ASSUMED],
           (unsigned)reply[WHITTERMAY_UNITS]);
    for (size_t k = 0; k < sizeof out && number(out + k + 2) != 0; k += WHITTERMAY_ANSWER_RECORD)
        printf("%u %u %u %u\n", number(out + k), number(out + k + 2), number(out + k + 4), number(out + k + 6));
    return 0;
}
