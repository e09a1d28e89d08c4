/* yds: the planner and auditor yds_cli as one call, over bytes in memory.
 *
 * The call answers the words of a command line and the bytes of an input, as the program does: the same text, byte for byte, and the same status. It reads no
 * file, keeps nothing between calls, and takes memory by malloc alone, which it gives back before it returns.
 *
 *     static const struct yds_word words[] = { { "plan", 4 } };
 *     static const char jobs[] = "job a 0 12 4\njob b 2 10 8\n";
 *     static char room[YDS_ROOM(sizeof jobs)];
 *     size_t needed = 0;
 *     int status = yds_answer(words, 1, jobs, sizeof jobs - 1, 1, 2, room, sizeof room, &needed);
 *
 * Where status is YDS_DONE and needed is at most sizeof room, the plan stands in the first needed bytes of room. No byte 0 follows them.
 * In C++, yds.hpp takes jobs and gives slots. */
#ifndef YDS_H
#define YDS_H

#include <stddef.h>
#include <stdint.h>

#ifdef __cplusplus
extern "C" {
#endif

/* The version of this header. yds_version() tells that of the library with which the program runs: it may be later. */
#define YDS_VERSION "2.0.0"

/* No text has more bytes than this, whatever the words and the input are. */
#define YDS_MOST_TEXT ((size_t)8388608)

/* A room of this size holds the text of every command but "expand", for an input of so many bytes. The text of "expand"
 * has at most YDS_MOST_EXPANDED bytes, however short its input is.
 *
 * Why: a job's line has 11 bytes and its name, at least. "round", whose texts are the longest, writes that line and at
 * most five slots, each of at most 162 bytes and the name. That is less than 69 times the job's line. An energy, a
 * refusal, a verdict or the usage line takes less than 4,096 bytes. */
#define YDS_ROOM(input_length) \
    ((size_t)(input_length) < 121000 ? (size_t)69 * (size_t)(input_length) + (size_t)4096 : YDS_MOST_TEXT)
#define YDS_MOST_EXPANDED ((size_t)400000)

/* A word of the command line: so many bytes, without a byte 0 behind them. The program's name is none of the words. */
struct yds_word {
    const char *bytes;
    size_t length;
};

/* How a call ends. The numbers are the program's statuses. 4 and 5 tell of a read and a write that failed: they can't come here. */
enum yds_status {
    YDS_DONE = 0,     /* the command's answer */
    YDS_NO = 1,       /* the answer is no: the slots aren't feasible or aren't on the points, the certificate isn't proper, or the top point is too slow */
    YDS_USAGE = 2,    /* the words name no command: the text is the usage line */
    YDS_REFUSED = 3,  /* the input has a fault or is too long, or has no points where they are needed: the text is one line that tells which */
    YDS_MEMORY = 6,   /* lack of memory: there is no text, and the room is as it was */
    YDS_WORDS = 7     /* a word isn't UTF-8: there is no text, and the room is as it was */
};

/* Answers the words, from the input.
 *
 * words, word_count        the words of the command line, such as "avr", "--grid", "100"
 * input, input_length      the document, or the tasks of "expand". More than 8,388,608 bytes are refused. Trials and words that name no command read none of it.
 * first_key, second_key    any two numbers. Names are looked up in a table under these keys. No answer depends on them. Draw them at random, once for each
 *                          process, where the input may come from someone who wants to make a call slow.
 * room, room_length        where the text goes
 * needed                   where the length of the text goes, in bytes
 *
 * Returns one of yds_status. Then
 *
 *   - *needed is the length of the whole text, whether or not the room holds it. It is 0 with YDS_MEMORY and YDS_WORDS.
 *   - Where *needed is at most room_length, the text stands in the first *needed bytes of the room, and the rest of the room is as it was.
 *   - Where it is more, the room is as it was. Call again with a room of that length: the same words and the same input have the same text.
 *     A room_length of 0 asks for the length alone, which takes as long as the answer.
 *
 * A pointer to nothing may be null: words where word_count is 0, input and room where their lengths are 0, and the bytes
 * of a word whose length is 0.
 *
 * Asked of the caller, and tested by nothing:
 *
 *   - Else no pointer is null. needed never is.
 *   - words, input and the bytes of each word can be read whole, room and needed can be read and written whole, and no
 *     other thread writes any of them meanwhile.
 *   - The bytes of the room have values before the call. Those of a local array or of malloc have none until they are
 *     written once: clear them, or take `static` or calloc.
 *   - words and needed are aligned as their types are. Bytes may begin anywhere.
 *   - room and needed overlap neither each other nor anything that is read. words, input and the words' bytes may overlap each other.
 *   - Each length in bytes is below 2^63, that of the array of words too.
 *   - malloc, realloc and free are from one allocator and align as C asks. The call isn't made by a signal handler, nor in the child of a fork
 *     of a process with threads.
 *
 * Any number of threads may call at once, each with a room and a needed of its own. A stack of 64 KiB suffices.
 *
 * The call ends by its return alone: nothing is thrown through it, and it makes no jump. It has no unwind tables, so the
 * stack that a debugger or a profiler shows ends in it. Who links libyds.a without the compiler's driver adds libgcc, for
 * the division of 128 bits. */
uint8_t yds_answer(const struct yds_word *words, size_t word_count, const void *input, size_t input_length, uint64_t first_key, uint64_t second_key,
                   void *room, size_t room_length, size_t *needed);

/* The version of the library, such as "2.0.0", with a byte 0 behind it. It stays as long as the library is loaded. */
const char *yds_version(void);

#ifdef __cplusplus
}
#endif

#endif
