/*
 * fuzz.c: draws documents near the grammar and holds the program's answers to them against what they promise.
 *
 *   fuzz PROGRAM ROWS SEED COUNT [FIRST]
 *
 * ROWS is the folder of worked rows, whose documents are what is changed. Document number I of a seed is always the same, so
 * a finding is repeated by `fuzz PROGRAM ROWS SEED 1 I`. It is also written into the file finding-SEED-I.txt. The last line
 * is 'N passed, M failed', and the exit status is 1 where M isn't 0.
 *
 * With -DLIBRARY, and linked with the C library, each answer of the program is also compared with the library's.
 *
 * What is held: a run ends with a status of the table and without a word on standard error. A refusal's line and column are
 * in the input, and every command refuses a document alike. `check` accepts and `audit` finds feasible what `plan` wrote; so does
 * `audit` what `avr`, `oa`, `admit` and `round` wrote, the last with `--points` too; `plan` reads what `expand` wrote. An answer that is
 * a document, read again by the same command, gives itself. `check` and `audit` tell the same cause, what is feasible with `--points` is
 * feasible without, and a foreign certificate that is accepted has the plan's levels. `report`, `report --json` and `curve` have the same work, `compare` and `round` the same energy.
 */
#define _GNU_SOURCE
#include <errno.h>
#include <fcntl.h>
#include <glob.h>
#include <signal.h>
#include <spawn.h>
#include <stdarg.h>
#include <stdint.h>
#include <stdio.h>
#include <stdlib.h>
#include <string.h>
#include <sys/mman.h>
#include <sys/wait.h>
#include <unistd.h>
#ifdef LIBRARY
#include "yds.h"
#endif

enum { MOST_ROWS = 400, MOST_BYTES = 1 << 20, SECONDS = 60 };

extern char **environ;

/* Texts */

struct text {
	char *bytes;
	size_t length;
};

static struct text new_text(void) {
	struct text text = {malloc(MOST_BYTES + 1), 0};
	if (!text.bytes) {
		fprintf(stderr, "fuzz: out of memory\n");
		exit(2);
	}
	text.bytes[0] = 0;
	return text;
}

/* Puts bytes in place of `gone` others; what is too long for the text is left out. */
static void replace(struct text *text, size_t at, size_t gone, const char *bytes, size_t count) {
	if (text->length - gone + count > MOST_BYTES)
		return;
	memmove(text->bytes + at + count, text->bytes + at + gone, text->length - at - gone + 1);
	memcpy(text->bytes + at, bytes, count);
	text->length += count - gone;
}

static void append(struct text *text, const char *bytes, size_t count) { replace(text, text->length, 0, bytes, count); }

__attribute__((format(printf, 2, 3))) static void print(struct text *text, const char *format, ...) {
	char line[400];
	va_list values;
	va_start(values, format);
	int count = vsnprintf(line, sizeof line, format, values);
	va_end(values);
	append(text, line, (size_t)count);
}

static void copy(struct text *to, const struct text *from) {
	to->length = 0;
	append(to, from->bytes, from->length);
}

static int same(const struct text *a, const struct text *b) { return a->length == b->length && memcmp(a->bytes, b->bytes, a->length) == 0; }

static int begins(const struct text *text, const char *front) { return strncmp(text->bytes, front, strlen(front)) == 0; }

/* Where the line at or after a place ends: behind its line feed, or at the end of the text. */
static size_t line_end(const struct text *text, size_t at) {
	const char *feed = memchr(text->bytes + at, '\n', text->length - at);
	return feed ? (size_t)(feed - text->bytes) + 1 : text->length;
}

/* Where the last line begins. */
static size_t last_line(const struct text *text) {
	size_t at = 0;
	for (size_t end; (end = line_end(text, at)) < text->length; at = end)
		;
	return at;
}

/* Chance: splitmix64, begun anew for each document. */

static uint64_t state;

static uint64_t draw(void) {
	uint64_t z = state += 0x9e3779b97f4a7c15;
	z = (z ^ z >> 30) * 0xbf58476d1ce4e5b9;
	z = (z ^ z >> 27) * 0x94d049bb133111eb;
	return z ^ z >> 31;
}

static size_t below(size_t count) { return count ? draw() % count : 0; }

static const char *one_of(const char *const *words, size_t count) { return words[below(count)]; }
#define ONE_OF(words) one_of(words, sizeof words / sizeof words[0])

/* The documents of the worked rows. */

static struct text rows[MOST_ROWS], task_rows[MOST_ROWS];
static size_t row_count, task_row_count;

static void load(const char *path) {
	struct text text = new_text();
	FILE *file = fopen(path, "rb");
	if (!file)
		return;
	text.length = fread(text.bytes, 1, MOST_BYTES, file);
	text.bytes[text.length] = 0;
	fclose(file);
	int of_tasks = begins(&text, "horizon") || begins(&text, "task");
	if (of_tasks && task_row_count < MOST_ROWS)
		task_rows[task_row_count++] = text;
	else if (!of_tasks && row_count < MOST_ROWS)
		rows[row_count++] = text;
}

static void load_rows(const char *folder) {
	static const char *const patterns[] = {"/*/stdin", "/../*.txt"};
	for (int i = 0; i < 2; i++) {
		char pattern[4096];
		glob_t found;
		snprintf(pattern, sizeof pattern, "%s%s", folder, patterns[i]);
		if (glob(pattern, 0, NULL, &found) != 0)
			continue;
		for (size_t k = 0; k < found.gl_pathc; k++)
			load(found.gl_pathv[k]);
		globfree(&found);
	}
	if (row_count == 0 || task_row_count == 0) {
		fprintf(stderr, "fuzz: no worked rows in %s\n", folder);
		exit(2);
	}
}

/* Numbers and fields that lie at some edge, and lines of every kind. */

static const char *const edges[] = {
	"0", "1", "2", "3", "4", "5", "6", "10", "12", "63", "64", "65", "3999", "4000", "4001", "1000000", "1000001", "999999999", "1000000000", "1000000001",
	"4000000000", "4000000001", "1000000000000", "1000000000001", "1000000000000000000", "1000000000000000001", "1152921504606846975", "1152921504606846976",
	"1152921504606846977", "9223372036854775807", "9223372036854775808", "18446744073709551615", "18446744073709551616", "340282366920938463463374607431768211456",
	"00", "01", "-1", "+1", "1.5", "1e3", "0x10", "1+", "1+1", "1+/", "+1/2", "1+0/5", "1+1/0", "0+1/2", "0+2/2", "1+1/2", "0+1/3", "3+2/3", "2+0/1152921504606846976",
	"0+1152921504606846975/1152921504606846976", "0+1/1152921504606846976", "1+1/1152921504606846977", "1000000000+1/2", "1/2", "a", "b", "#", "\xc3\xa9", "\x7f", "\x01",
	"aaaaaaaaaaaaaaaaaaaaaaaaaaaaaaaaaaaaaaaaaaaaaaaaaaaaaaaaaaaaaaaa", "aaaaaaaaaaaaaaaaaaaaaaaaaaaaaaaaaaaaaaaaaaaaaaaaaaaaaaaaaaaaaaaaa",
};

static const char *const kinds[] = {"job", "point", "slot", "level", "piece", "member", "ticks", "run", "grid", "energy", "horizon", "task", "jobs", "#", "Job"};

static void draw_line(struct text *text) {
	print(text, "%s", ONE_OF(kinds));
	for (size_t fields = below(6); fields > 0; fields--)
		print(text, " %s", ONE_OF(edges));
	print(text, "\n");
}

/* A document by the grammar: jobs, perhaps points, a run's ticks and runs, slots and a level, in small or great numbers. */
static void draw_document(struct text *text) {
	static const size_t spans[] = {4, 12, 40, 1000, 1000000, 1000000000}, most_works[] = {2, 9, 100, 1000000};
	size_t jobs = below(below(8) ? 9 : 120), span = spans[below(6)], works = most_works[below(4)], speed = 0;
	for (size_t i = 0; i < jobs; i++) {
		size_t release = below(span), length = 1 + below(below(2) ? span - release : 1 + (span - release) / 8);
		print(text, "job j%zu %zu %zu %zu\n", i, release, release + length, below(works + 1));
	}
	if (below(2))
		for (size_t points = 1 + below(below(8) ? 6 : 66), i = 0; i < points; i++, speed += 1 + below(below(2) ? 3 : 1 + 4000 / points))
			print(text, "point %zu %zu\n", speed, below(2) ? speed * speed : below(1000));
	if (below(3) == 0)
		print(text, "ticks %zu\n", 1 + below(1000));
	for (size_t slots = below(4); slots > 0 && jobs > 0; slots--) {
		size_t from = below(span), denominator = 1 + below(9);
		if (below(3))
			print(text, "slot j%zu %zu+%zu/%zu %zu %zu\n", below(jobs), from, below(denominator), denominator, from + 1 + below(3), below(works + 1));
		else
			print(text, "run j%zu %zu %zu %zu\n", below(jobs), from, from + below(9), below(works + 1));
	}
	if (below(4) == 0 && jobs > 0) {
		print(text, "level %zu %zu\n", 1 + below(works), 1 + below(span));
		print(text, "piece %zu %zu\nmember j%zu\n", below(span), 1 + below(span), below(jobs));
	}
	if (below(8) == 0)
		print(text, "grid %zu %zu\nenergy %zu+%zu/7\n", 1 + below(9), below(9), below(works), below(7));
}

static void draw_tasks(struct text *text) {
	static const size_t spans[] = {4, 12, 60, 1000, 1000000000};
	size_t horizon = 1 + below(spans[below(5)]);
	print(text, "horizon %zu\n", horizon);
	for (size_t tasks = below(6), i = 0; i < tasks; i++) {
		size_t divisor = 1 + below(6), period = below(2) || horizon < divisor ? 1 + below(horizon) : horizon / divisor;
		print(text, "task t%zu %zu %zu %zu %zu\n", i, below(2) ? 0 : below(horizon), period, below(2) ? period : 1 + below(horizon), below(10));
	}
}

/* Changes */

static size_t any_line(const struct text *text) {
	size_t at = below(text->length + 1);
	while (at > 0 && text->bytes[at - 1] != '\n')
		at--;
	return at;
}

static void change_line(struct text *text, int how) {
	char line[4096];
	size_t at = any_line(text), length = line_end(text, at) - at, to = any_line(text);
	if (length > sizeof line)
		return;
	memcpy(line, text->bytes + at, length);
	if (how == 0) { /* cut */
		replace(text, at, length, "", 0);
	} else if (how == 1) { /* doubled */
		replace(text, to, 0, line, length);
	} else if (to > at) { /* moved behind a later one */
		to = line_end(text, to);
		replace(text, to, 0, line, length);
		replace(text, at, length, "", 0);
	}
}

static void change_bytes(struct text *text, int how) {
	static const char odd[] = "0123456789 +/\t\r\n#-.ajx\x00\x7f\xff";
	if (text->length == 0)
		return;
	size_t at = below(text->length), other = below(text->length);
	char byte = text->bytes[at];
	if (how == 0) {
		replace(text, at, 1, "", 0);
	} else if (how == 1) {
		replace(text, at, 0, &byte, 1);
	} else if (how == 2) {
		text->bytes[at] = text->bytes[other];
		text->bytes[other] = byte;
	} else {
		replace(text, at, how == 3, odd + below(sizeof odd - 1), 1);
	}
}

/* Puts an edge, or a number near by, in place of a field, or adds or takes away one. */
static void change_field(struct text *text, int how) {
	size_t at = below(text->length + 1), end;
	while (at > 0 && !strchr(" \n", text->bytes[at - 1]))
		at--;
	for (end = at; end < text->length && !strchr(" \n", text->bytes[end]); end++)
		;
	if (how == 0) {
		const char *edge = ONE_OF(edges);
		replace(text, at, end - at, edge, strlen(edge));
	} else if (how == 1) {
		char *rest, near[40];
		unsigned long long number = strtoull(text->bytes + at, &rest, 10);
		if (rest == text->bytes + at)
			return;
		int count = snprintf(near, sizeof near, "%llu", number + below(3) - (number > 0));
		replace(text, at, (size_t)(rest - text->bytes) - at, near, (size_t)count);
	} else if (how == 2) {
		replace(text, at, end - at + (end < text->length && text->bytes[end] == ' '), "", 0);
	} else {
		const char *edge = ONE_OF(edges);
		replace(text, at, 0, " ", 1);
		replace(text, at, 0, edge, strlen(edge));
	}
}

static void change(struct text *text) {
	struct text line;
	switch (below(12)) {
	case 0: case 1: change_line(text, (int)below(3)); break;
	case 2: case 3: change_bytes(text, (int)below(5)); break;
	case 4: case 5: case 6: case 7: change_field(text, 1); break;
	case 8: change_field(text, 0); break;
	case 9: change_field(text, (int)(2 + below(2))); break;
	case 10:
		line = new_text();
		draw_line(&line);
		replace(text, any_line(text), 0, line.bytes, line.length);
		free(line.bytes);
		break;
	default: /* the end is cut off */
		text->length -= below(text->length < 40 ? text->length + 1 : 40);
		text->bytes[text->length] = 0;
	}
}

static void draw_input(struct text *text, int of_tasks) {
	text->length = 0;
	text->bytes[0] = 0;
	if (below(3) == 0) {
		if (of_tasks)
			draw_tasks(text);
		else
			draw_document(text);
		if (below(3))
			return;
	} else {
		copy(text, of_tasks ? &task_rows[below(task_row_count)] : &rows[below(row_count)]);
		if (below(6) == 0) {
			const struct text *other = &rows[below(row_count)];
			size_t from = any_line(other);
			replace(text, any_line(text), 0, other->bytes + from, other->length - from);
		}
	}
	for (size_t changes = below(5); changes > 0; changes--)
		change(text);
}

/* Runs */

struct answer {
	int status; /* 128 and the signal's number where the run was ended by one */
	struct text written;
};

static const char *program;
static int input_file, output_file, error_file;
static unsigned long endings[256];
static volatile pid_t running;

static void too_long(int number) {
	(void)number;
	kill(running, SIGKILL);
}

static void empty(int file) {
	if (ftruncate(file, 0) != 0 || lseek(file, 0, SEEK_SET) != 0)
		exit(2);
}

#ifdef LIBRARY
enum { OTHERWISE = 1000, TOO_LONG };

/* Asks the library what the program was asked. Where it answers otherwise, or more than yds.h says, the status tells it. */
static void compare_with_library(struct answer *answer, char *const *words, size_t count, const struct text *input) {
	static char room[MOST_BYTES];
	struct yds_word given[6];
	size_t needed;
	for (size_t i = 0; i < count; i++)
		given[i] = (struct yds_word){words[i], strlen(words[i])};
	int status = yds_answer(given, count, input->bytes, input->length, input->length, 17, room, sizeof room, &needed);
	if (needed > (count > 0 && strcmp(words[0], "expand") == 0 ? YDS_MOST_EXPANDED : YDS_ROOM(input->length)))
		answer->status = TOO_LONG;
	else if (status != answer->status || needed != answer->written.length || memcmp(room, answer->written.bytes, needed) != 0)
		answer->status = OTHERWISE;
}
#endif

/* Runs the program with the words of a line over the input. The answer's text is the caller's. */
static void run(struct answer *answer, const char *line, const struct text *input) {
	char words[100], *arguments[6] = {(char *)program}, *rest = words;
	int count = 1, status;
	snprintf(words, sizeof words, "%s", line);
	for (char *word; count < 5 && (word = strsep(&rest, " ")); count++)
		arguments[count] = word;
	empty(input_file);
	empty(output_file);
	if (pwrite(input_file, input->bytes, input->length, 0) != (ssize_t)input->length)
		exit(2);
	posix_spawn_file_actions_t actions;
	posix_spawn_file_actions_init(&actions);
	posix_spawn_file_actions_adddup2(&actions, input_file, 0);
	posix_spawn_file_actions_adddup2(&actions, output_file, 1);
	posix_spawn_file_actions_adddup2(&actions, error_file, 2);
	pid_t child;
	if (posix_spawn(&child, program, &actions, NULL, arguments, environ) != 0) {
		fprintf(stderr, "fuzz: %s can't be run\n", program);
		exit(2);
	}
	posix_spawn_file_actions_destroy(&actions);
	running = child;
	alarm(SECONDS);
	while (waitpid(child, &status, 0) < 0 && errno == EINTR)
		;
	alarm(0);
	answer->status = WIFEXITED(status) ? WEXITSTATUS(status) : 128 + WTERMSIG(status);
	endings[answer->status & 255]++;
	ssize_t length = pread(output_file, answer->written.bytes, MOST_BYTES, 0);
	answer->written.length = length > 0 ? (size_t)length : 0;
	answer->written.bytes[answer->written.length] = 0;
#ifdef LIBRARY
	compare_with_library(answer, arguments + 1, (size_t)count - 1, input);
#endif
}

/* What is promised. Each function gives NULL, or says what doesn't hold. */

static const char *const reasons[] = {
	"UnknownKind", "Misplaced", "TooMany", "FieldCount", "BadName", "DuplicateName", "UnknownName", "BadNumber", "OutOfRange", "EmptyWindow",
	"MixedEnds", "MixedGrain", "NoIdle", "NotRising", "GapsTooFine", "TooManyJobs",
};

static int is_space(char byte) { return byte == ' ' || byte == '\t'; }

/* Whether a field of the line begins at this column, or, for a fault in the number of fields, its last field ends before it. */
static int is_column(const char *line, size_t length, size_t column, int past_the_end) {
	if (column < 1 || column > length + 1)
		return 0;
	int after_space = column == 1 || is_space(line[column - 2]);
	if (column <= length && !is_space(line[column - 1]) && after_space)
		return 1;
	if (!past_the_end || after_space)
		return 0;
	for (size_t i = column - 1; i < length; i++)
		if (!is_space(line[i]))
			return 0;
	return 1;
}

static const char *holds_place(const struct answer *answer, const struct text *input) {
	size_t line, column, at = 0;
	char reason[20] = "", rest = 0;
	const struct text *written = &answer->written;
	if (sscanf(written->bytes, "refused %zu %zu %19[A-Za-z]%c", &line, &column, reason, &rest) != 4 || rest != '\n' || last_line(written) != 0)
		return "a refusal in another form";
	int known = 0;
	for (size_t i = 0; i < sizeof reasons / sizeof reasons[0]; i++)
		known |= strcmp(reason, reasons[i]) == 0;
	if (!known)
		return "a refusal for an unknown reason";
	for (size_t k = 1; k < line && at < input->length; k++)
		at = line_end(input, at);
	if (line < 1 || at >= input->length)
		return "a refusal of a line that isn't there";
	size_t length = line_end(input, at) - at;
	if (length > 0 && input->bytes[at + length - 1] == '\n')
		length--;
	if (length > 0 && input->bytes[at + length - 1] == '\r')
		length--;
	if (!is_column(input->bytes + at, length, column, strcmp(reason, "FieldCount") == 0))
		return "a refusal of a column in which no field begins";
	return NULL;
}

static int is_no_table(const struct answer *answer) { return strcmp(answer->written.bytes, "refused no-table\n") == 0; }

/* What holds of every run over a document or tasks. */
static const char *holds_ending(const struct answer *answer, const char *line, const struct text *input) {
#ifdef LIBRARY
	if (answer->status == OTHERWISE)
		return "the library answers otherwise";
	if (answer->status == TOO_LONG)
		return "the library's text is longer than yds.h says";
#endif
	if (answer->status != 0 && answer->status != 1 && answer->status != 3)
		return "a status that no document gives";
	if (lseek(error_file, 0, SEEK_END) != 0)
		return "something on standard error";
	if (memchr(answer->written.bytes, 0, answer->written.length) || (answer->written.length > 0 && answer->written.bytes[answer->written.length - 1] != '\n'))
		return "an answer that is no list of lines";
	if (answer->status != 3)
		return begins(&answer->written, "refused") ? "a refusal with another status" : NULL;
	if (is_no_table(answer))
		return strncmp(line, "round", 5) == 0 || strstr(line, "--points") || strstr(line, "compare") ? NULL : "no table is wanted here";
	return holds_place(answer, input);
}

static struct answer other, third, fourth;
static struct text changed;

/* Runs another command over what was written, or over the same input, and looks at what always holds. */
#define RUN(answer, line, input) \
	do { \
		const char *fault = (run(answer, line, input), holds_ending(answer, line, input)); \
		if (fault) \
			return fault; \
	} while (0)

static const char *answers(const struct text *input, const char *line, const char *wanted, const char *fault) {
	RUN(&other, line, input);
	return other.status == 0 && strcmp(other.written.bytes, wanted) == 0 ? NULL : fault;
}

static const char *gives_itself(const struct answer *answer, const char *line) {
	RUN(&other, line, &answer->written);
	return other.status == answer->status && same(&other.written, &answer->written) ? NULL : "an answer that, read again, doesn't give itself";
}

struct levels {
	size_t count;
	struct {
		unsigned long long work, length;
	} all[5000];
};

/* The levels of a document; those of one speed that follow one another are one. */
static void read_levels(const struct text *text, struct levels *levels) {
	unsigned long long work, length;
	levels->count = 0;
	for (size_t at = 0; at < text->length; at = line_end(text, at)) {
		while (is_space(text->bytes[at]))
			at++;
		if (sscanf(text->bytes + at, "level%*[ \t]%llu%*[ \t]%llu", &work, &length) != 2)
			continue;
		size_t last = levels->count - 1;
		if (levels->count > 0 && (unsigned __int128)levels->all[last].work * length == (unsigned __int128)work * levels->all[last].length) {
			levels->all[last].work += work;
			levels->all[last].length += length;
		} else if (levels->count < 5000) {
			levels->all[levels->count].work = work;
			levels->all[levels->count++].length = length;
		}
	}
}

static int same_levels(const struct text *a, const struct text *b) {
	static struct levels left, right;
	read_levels(a, &left);
	read_levels(b, &right);
	return left.count == right.count && memcmp(left.all, right.all, left.count * sizeof left.all[0]) == 0;
}

/* Slots and levels from anywhere: `audit` and `check` say the same of the slots, and what is accepted has the plan's levels. */
static const char *holds_foreign(const struct text *input) {
	RUN(&other, "audit", input);
	RUN(&third, "check", input);
	const char *told = third.written.bytes;
	if (other.status == 3 || third.status == 3)
		return same(&other.written, &third.written) ? NULL : "a document that one command refuses and another doesn't";
	if (other.status == 1)
		return third.status == 1 && strncmp(told, "K1 ", 3) == 0 && strcmp(told + 3, other.written.bytes) == 0 ? NULL : "check and audit tell other causes";
	if (third.status == 1)
		return told[0] == 'K' && told[1] >= '2' && told[1] <= '7' && told[2] == ' ' ? NULL : "check tells an unknown cause";
	if (strcmp(told, "accepted\n") != 0)
		return "check answers with another word";
	RUN(&fourth, "plan", input);
	return same_levels(input, &fourth.written) ? NULL : "an accepted certificate without the plan's levels";
}

/* What is feasible on the points is feasible. */
static const char *holds_points(const struct answer *points, const struct text *input) {
	if (is_no_table(points))
		return NULL;
	RUN(&other, "audit", input);
	if (points->status == 0)
		return other.status == 0 ? NULL : "feasible on the points and not without them";
	return other.status == 1 || begins(&points->written, "off-point slot ") ? NULL : "another cause on the points than off-point";
}

static const char *holds_plan(const struct answer *plan) {
	const char *fault = answers(&plan->written, "check", "accepted\n", "a plan that isn't accepted");
	if (!fault)
		fault = answers(&plan->written, "audit", "feasible\n", "a plan that isn't feasible");
	if (!fault)
		fault = gives_itself(plan, "plan");
	if (fault)
		return fault;
	copy(&changed, &plan->written);
	for (size_t changes = 1 + below(3); changes > 0; changes--)
		change(&changed);
	return holds_foreign(&changed);
}

static const char *holds_round(const struct answer *rounded, const struct text *input) {
	RUN(&other, "compare --grid 12", input);
	if (rounded->status != 0)
		return other.status == rounded->status && same(&other.written, &rounded->written) ? NULL : "compare and round tell other causes";
	char energy[100];
	size_t at = last_line(&rounded->written);
	int length = snprintf(energy, sizeof energy, "plan %s", rounded->written.bytes + at);
	if (other.status != 0 || strncmp(other.written.bytes, energy, (size_t)length) != 0)
		return "compare and round tell other energies";
	const char *fault = answers(&rounded->written, "audit --points", "feasible\n", "a rounded plan that isn't feasible on the points");
	if (!fault)
		fault = answers(&rounded->written, "audit", "feasible\n", "a rounded plan that isn't feasible");
	return fault ? fault : gives_itself(rounded, "round");
}

static const char *holds_policy(const struct answer *answer, const char *line, const struct text *input) {
	char compare[100], rounded[100];
	const char *fault = answers(&answer->written, "audit", "feasible\n", "a policy's run that isn't feasible");
	if (!fault)
		fault = gives_itself(answer, line);
	if (fault)
		return fault;
	snprintf(compare, sizeof compare, "compare%s", strchr(line, ' '));
	RUN(&other, compare, input);
	if (other.status != 0)
		return NULL;
	const char *count = strrchr(answer->written.bytes, ' ');
	snprintf(rounded, sizeof rounded, "\n%.3s rounded%s", line[0] == 'a' ? "avr" : "oa", count ? count : "");
	return strstr(other.written.bytes, rounded) ? NULL : "compare and the policy have rounded another number of times";
}

/* The admitted jobs, all of which are admitted again. */
static const char *holds_admission(const struct answer *answer, const char *line) {
	const char *fault = answers(&answer->written, "audit", "feasible\n", "an admission that isn't feasible");
	if (fault)
		return fault;
	const char *refused = strstr(answer->written.bytes, "# refuse ");
	size_t length = refused ? (size_t)(refused - answer->written.bytes) : answer->written.length;
	RUN(&other, line, &answer->written);
	int again = other.written.length == length && memcmp(other.written.bytes, answer->written.bytes, length) == 0;
	return again ? NULL : "admitted jobs that aren't admitted again";
}

static const char *holds_report(const struct answer *report, const struct text *input) {
	unsigned long long jobs, work, break_work, json_work;
	if (sscanf(report->written.bytes, "jobs %llu work %llu from ", &jobs, &work) != 2)
		return "a report in another form";
	RUN(&other, "curve", input);
	RUN(&third, "report --json", input);
	const char *total = strstr(third.written.bytes, "],\"to\":");
	total = total ? strstr(total, "\"work\":") : NULL;
	if (sscanf(other.written.bytes, "break 0 %llu", &break_work) != 1 || !total || sscanf(total, "\"work\":%llu}\n", &json_work) != 1)
		return "a curve or a report as JSON in another form";
	return work == break_work && work == json_work ? NULL : "a report, a curve and a report as JSON with different works";
}

static const char *holds_expansion(const struct answer *answer) {
	RUN(&other, "plan", &answer->written);
	if (other.status != 0)
		return "jobs of tasks that plan refuses";
	const char *comment = strstr(answer->written.bytes, "# one level ");
	size_t length = comment ? (size_t)(comment - answer->written.bytes) : answer->written.length;
	if (strncmp(other.written.bytes, answer->written.bytes, length) != 0)
		return "jobs of tasks that plan reads as others";
	if (!comment)
		return NULL;
	const char *level = strstr(other.written.bytes, "\nlevel ");
	int alone = level && !strstr(level + 1, "\nlevel ") && strncmp(level + 7, comment + 12, strlen(comment + 12)) == 0;
	return alone ? NULL : "one level is told, and the plan has another";
}

/* Draws a command for the input, runs it and holds its answer against what is promised. The command's words stay in `line`. */
static const char *try_input(const struct text *input, int of_tasks, char *line, size_t size) {
	static const char *const commands[] = {
		"plan", "plan", "round", "round", "check", "check", "audit", "audit --points", "report", "report --json", "curve", "avr --grid", "oa --grid", "compare --grid", "admit",
	};
	static const char *const numbers[] = {"1", "2", "3", "5", "6", "7", "12", "100", "1000", "720720", "999983", "1000000"};
	static struct answer answer;
	if (!answer.written.bytes)
		answer.written = new_text();
	const char *command = of_tasks ? "expand" : ONE_OF(commands);
	int numbered = strstr(command, "--grid") || strcmp(command, "admit") == 0;
	snprintf(line, size, "%s%s%s", command, numbered ? " " : "", numbered ? ONE_OF(numbers) : "");
	RUN(&answer, line, input);
	if (of_tasks)
		return answer.status == 0 ? holds_expansion(&answer) : NULL;
	if (answer.status == 3 && !is_no_table(&answer)) {
		if (below(3))
			return NULL;
		RUN(&other, ONE_OF(((const char *const[]){"plan", "check", "round", "curve", "audit --points", "admit 1"})), input);
		return other.status == 3 && same(&answer.written, &other.written) ? NULL : "a document that two commands don't refuse alike";
	}
	switch (line[0]) {
	case 'p': return answer.status == 0 ? holds_plan(&answer) : "a plan that ends with no";
	case 'a':
		if (line[1] == 'v')
			return answer.status == 0 ? holds_policy(&answer, line, input) : "a policy's run that ends with no";
		if (line[1] == 'd')
			return answer.status == 0 ? holds_admission(&answer, line) : "an admission that ends with no";
		return strstr(line, "--points") ? holds_points(&answer, input) : holds_foreign(input);
	case 'o': return answer.status == 0 ? holds_policy(&answer, line, input) : "a policy's run that ends with no";
	case 'r': return line[1] == 'o' ? holds_round(&answer, input) : strstr(line, "json") ? NULL : holds_report(&answer, input);
	default: return line[1] == 'h' ? holds_foreign(input) : NULL;
	}
}

static void tell(unsigned long seed, unsigned long number, const char *fault, const char *line, const struct text *input) {
	char name[100];
	snprintf(name, sizeof name, "finding-%lu-%lu.txt", seed, number);
	FILE *file = fopen(name, "wb");
	if (file) {
		fwrite(input->bytes, 1, input->length, file);
		fclose(file);
	}
	printf("FAILED: document %lu of seed %lu, '%s': %s; it is in %s\n", number, seed, line, fault, name);
	fflush(stdout);
}

int main(int count, char **words) {
	if (count < 5) {
		fprintf(stderr, "usage: fuzz PROGRAM ROWS SEED COUNT [FIRST]\n");
		return 2;
	}
	unsigned long seed = strtoul(words[3], NULL, 10), wanted = strtoul(words[4], NULL, 10), first = count > 5 ? strtoul(words[5], NULL, 10) : 1, failed = 0;
	program = words[1];
	load_rows(words[2]);
	input_file = memfd_create("input", MFD_CLOEXEC);
	output_file = memfd_create("output", MFD_CLOEXEC);
	error_file = memfd_create("error", MFD_CLOEXEC);
	signal(SIGALRM, too_long);
	struct text input = new_text();
	changed = new_text();
	other.written = new_text();
	third.written = new_text();
	fourth.written = new_text();
	for (unsigned long number = first; number < first + wanted; number++) {
		char line[100];
		state = seed * 0x9e3779b97f4a7c15 + number * 0xd1342543de82ef95;
		int of_tasks = below(8) == 0;
		draw_input(&input, of_tasks);
		const char *fault = try_input(&input, of_tasks, line, sizeof line);
		if (fault) {
			failed++;
			tell(seed, number, fault, line, &input);
			empty(error_file);
		}
	}
	printf("%lu documents of seed %lu from number %lu on; runs by status:", wanted, seed, first);
	for (int status = 0; status < 256; status++)
		if (endings[status] > 0)
			printf(" %lu of %d", endings[status], status);
	printf("\n");
	printf("%lu passed, %lu failed\n", wanted - failed, failed);
	return failed > 0;
}
