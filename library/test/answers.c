/*
 * answers.c: whether the library answers as the program does.
 *
 *   answers rows ROWS       each worked row in rooms of several sizes, one byte too small among them
 *   answers threads ROWS    every row, and documents of 4,000 jobs, in four threads at once, each with a stack of 64 KiB
 *   answers words           words that aren't UTF-8, no words, odd words, null pointers to nothing, and the version
 *   answers memory ROWS     each allocation for every row, and for documents of 200 jobs, refused in turn, alone and with all after it
 *
 * ROWS is the folder of worked rows. `memory` needs REFUSING to be defined, and the static library linked with
 * -Wl,--wrap=malloc,--wrap=realloc,--wrap=free. The last line is 'N passed, M failed', and the exit status is 1 where M isn't 0.
 */
#define _GNU_SOURCE
#include "yds.h"
#include <glob.h>
#include <pthread.h>
#include <stdio.h>
#include <stdlib.h>
#include <string.h>

enum { MOST_WORDS = 6, GUARD = 64, THREADS = 4, ROUNDS = 10, STACK = 65536, LARGE_ROWS = 9, MOST_JOBS = 4000, JOBS = 200 };

struct text {
	char *bytes;
	size_t length;
};

struct row {
	char *name;
	struct yds_word words[MOST_WORDS];
	size_t word_count;
	struct text input, answer;
	int status;
};

static struct row *rows;
static size_t row_count;
static unsigned long passed, failed;

static void judge(const char *name, const char *fault) {
	if (!fault) {
		passed++;
		return;
	}
	failed++;
	printf("FAILED: %s: %s\n", name, fault);
}

/* The worked rows */

static void *have(void *block) {
	if (!block) {
		fprintf(stderr, "answers: out of memory\n");
		exit(2);
	}
	return block;
}

/* The bytes of a file, with a byte 0 behind them; NULL where there is none. */
static struct text load(const char *folder, const char *name) {
	char path[4096];
	struct text text = {NULL, 0};
	snprintf(path, sizeof path, "%s/%s", folder, name);
	FILE *file = fopen(path, "rb");
	if (!file)
		return text;
	fseek(file, 0, SEEK_END);
	text.length = (size_t)ftell(file);
	rewind(file);
	text.bytes = have(malloc(text.length + 1));
	text.length = fread(text.bytes, 1, text.length, file);
	text.bytes[text.length] = 0;
	fclose(file);
	return text;
}

/* Parts a text at its line feeds. */
static size_t part(struct text text, struct yds_word *words) {
	size_t count = 0;
	for (char *line = text.bytes, *end; count < MOST_WORDS && (end = strchr(line, '\n')) != NULL; line = end + 1)
		words[count++] = (struct yds_word){line, (size_t)(end - line)};
	return count;
}

static void load_rows(const char *folder) {
	glob_t found;
	char pattern[4096];
	snprintf(pattern, sizeof pattern, "%s/*/args", folder);
	if (glob(pattern, 0, NULL, &found) != 0) {
		fprintf(stderr, "answers: no worked rows in %s\n", folder);
		exit(2);
	}
	rows = have(calloc(found.gl_pathc + LARGE_ROWS, sizeof *rows));
	for (size_t i = 0; i < found.gl_pathc; i++) {
		struct row *row = &rows[row_count++];
		char *path = have(strdup(found.gl_pathv[i])), example[4096];
		*strrchr(path, '/') = 0;
		row->name = strrchr(path, '/') + 1;
		row->word_count = part(load(path, "args"), row->words);
		row->input = load(path, "stdin");
		struct text document = load(path, "document");
		if (document.bytes) {
			snprintf(example, sizeof example, "../%.*s", (int)strcspn(document.bytes, "\n"), document.bytes);
			row->input = load(folder, example);
		}
		row->answer = load(path, "stdout");
		struct text status = load(path, "status");
		if (!row->input.bytes || !row->answer.bytes || !status.bytes) {
			fprintf(stderr, "answers: the row %s isn't whole\n", row->name);
			exit(2);
		}
		row->status = atoi(status.bytes);
		free(status.bytes);
		free(document.bytes);
	}
	globfree(&found);
}

/* One call */

static int all_are(const char *bytes, size_t length, char byte) {
	for (size_t i = 0; i < length; i++)
		if (bytes[i] != byte)
			return 0;
	return 1;
}

/* The room that yds.h tells for the row. */
static size_t room_for(const struct row *row) {
	int expands = row->word_count > 0 && row->words[0].length == 6 && memcmp(row->words[0].bytes, "expand", 6) == 0;
	return expands ? YDS_MOST_EXPANDED : YDS_ROOM(row->input.length);
}

/* Makes the call over a room of this size, and looks at what it returned, at the room, and at what lies before and behind it. The room
 * begins at any address. */
static const char *call(const struct row *row, int status, const struct text *answer, size_t size, char *space) {
	char fill = (char)(size * 7 + 3), *room = space + GUARD + size % 8;
	size_t needed = 4711, all = size + 2 * GUARD + 8, front = answer->length <= size ? answer->length : 0;
	memset(space, fill, all);
	int returned = yds_answer(row->words, row->word_count, row->input.bytes, row->input.length, size, 31, room, size, &needed);
	if (returned != status)
		return "another status";
	if (needed != answer->length)
		return "another length";
	if (needed > room_for(row))
		return "a longer text than yds.h says";
	if (memcmp(room, answer->bytes, front) != 0)
		return "another text";
	if (!all_are(space, (size_t)(room - space), fill) || !all_are(room + front, all - (size_t)(room - space) - front, fill))
		return "a byte beside the text is written";
	return NULL;
}

static void try_rows(void) {
	for (size_t i = 0; i < row_count; i++) {
		size_t length = rows[i].answer.length, sizes[] = {0, length - 1, length, length + 1, length + 5000};
		char *space = have(malloc(length + 5000 + 2 * GUARD + 8));
		for (size_t k = length > 0 ? 0 : 2; k < sizeof sizes / sizeof sizes[0]; k++)
			judge(rows[i].name, call(&rows[i], rows[i].status, &rows[i].answer, sizes[k], space));
		free(space);
	}
}

/* Rows of a document that takes more memory and more of the stack: many jobs on operating points. What answers them is what the call gives. */
static void add_large_rows(int jobs) {
	static char input[MOST_JOBS * 64 + 100], lines[LARGE_ROWS][40] = {"plan", "round", "report", "report --json", "curve", "avr --grid 7", "oa --grid 7", "compare --grid 7", "admit 20"};
	char none[1];
	uint64_t state = 7;
	size_t length = 0;
	for (int i = 0; i < jobs; i++) {
		state = state * 6364136223846793005 + 1442695040888963407;
		unsigned long release = state >> 44, window = 1 + (state >> 20) % 5000, work = (state >> 8) % 900;
		length += (size_t)sprintf(input + length, "job j%d %lu %lu %lu\n", i, release, release + window, work);
	}
	length += (size_t)sprintf(input + length, "point 0 1\npoint 40 900\npoint 1000 90000\npoint 4000 900000\n");
	for (size_t i = 0; i < LARGE_ROWS; i++) {
		struct row *row = &rows[row_count++];
		row->name = have(strdup(lines[i]));
		row->input = (struct text){input, length};
		for (char *rest = lines[i], *word; (word = strsep(&rest, " ")) != NULL;)
			row->words[row->word_count++] = (struct yds_word){word, strlen(word)};
		row->status = yds_answer(row->words, row->word_count, input, length, 1, 2, none, 0, &row->answer.length);
		row->answer.bytes = have(malloc(row->answer.length + 1));
		if (row->status != YDS_MEMORY)
			row->status = yds_answer(row->words, row->word_count, input, length, 1, 2, row->answer.bytes, row->answer.length, &row->answer.length);
		if (row->status != YDS_DONE)
			fwrite(row->answer.bytes, 1, row->answer.length, stdout);
		judge(row->name, row->status == YDS_DONE ? NULL : "a large document isn't answered");
	}
}

/* Words */

static void try_words(void) {
	static const struct {
		struct yds_word words[3];
		size_t count;
		int status;
	} cases[] = {
		{{{"\xff", 1}}, 1, YDS_WORDS},
		{{{"plan\x80", 5}}, 1, YDS_WORDS},
		{{{"plan", 4}, {"\xed\xa0\x80", 3}}, 2, YDS_WORDS},
		{{{"\xc3", 1}, {"plan", 4}}, 2, YDS_WORDS},
		{{{"plan", 4}, {"--grid", 6}, {"\xf5\x80\x80\x80", 4}}, 3, YDS_WORDS},
		{{{"pl\xc3\xa4n", 5}}, 1, YDS_USAGE},
		{{{"plan\0", 5}}, 1, YDS_USAGE},
		{{{"", 0}}, 1, YDS_USAGE},
		{{{"", 0}}, 0, YDS_USAGE},
	};
	static const char usage[] = "usage: yds_cli ";
	for (size_t i = 0; i < sizeof cases / sizeof cases[0]; i++) {
		char room[400], name[40], fill = '.';
		size_t needed = 4711;
		snprintf(name, sizeof name, "words %zu", i);
		memset(room, fill, sizeof room);
		int returned = yds_answer(cases[i].words, cases[i].count, "", 0, 1, 2, room, sizeof room, &needed);
		if (returned != cases[i].status)
			judge(name, "another status");
		else if (returned == YDS_WORDS)
			judge(name, needed == 0 && all_are(room, sizeof room, fill) ? NULL : "something is written");
		else
			judge(name, needed < sizeof room && needed > sizeof usage && memcmp(room, usage, sizeof usage - 1) == 0 && room[needed - 1] == '\n' ? NULL : "another text");
	}
}

/* Null pointers, each to nothing, and what is told beside the answer. */
static void try_nulls(void) {
	static const struct yds_word plan = {"plan", 4}, null_word = {NULL, 0};
	static const char job[] = "job a 0 4 8\n", text[] = "job a 0 4 8\nslot a 0 4 8\nlevel 8 4\npiece 0 4\nmember a\n";
	static const char usage[] = "usage: yds_cli ";
	static char room[400];
	size_t needed = 4711;
	memset(room, '.', sizeof room);
	judge("no words, null", yds_answer(NULL, 0, job, sizeof job - 1, 1, 2, room, sizeof room, &needed) == YDS_USAGE && memcmp(room, usage, sizeof usage - 1) == 0 ? NULL : "another answer");
	memset(room, '.', sizeof room);
	judge("a word of no bytes, null", yds_answer(&null_word, 1, job, sizeof job - 1, 1, 2, room, sizeof room, &needed) == YDS_USAGE && memcmp(room, usage, sizeof usage - 1) == 0 ? NULL : "another answer");
	memset(room, '.', sizeof room);
	judge("no input, null", yds_answer(&plan, 1, NULL, 0, 1, 2, room, sizeof room, &needed) == YDS_DONE && needed == 0 && all_are(room, sizeof room, '.') ? NULL : "another answer");
	needed = 4711;
	judge("no room, null", yds_answer(&plan, 1, job, sizeof job - 1, 1, 2, NULL, 0, &needed) == YDS_DONE && needed == sizeof text - 1 ? NULL : "another answer");
	needed = 4711;
	judge("no input and no room, both null", yds_answer(&plan, 1, NULL, 0, 1, 2, NULL, 0, &needed) == YDS_DONE && needed == 0 ? NULL : "another answer");
	static const char *const commands[] = {"plan", "round", "avr --grid 7", "oa --grid 7", "check", "audit", "audit --points", "report", "report --json", "trial 5 7", "expand", "admit 3", "curve", "compare --grid 7"};
	for (size_t i = 0; i < sizeof commands / sizeof commands[0]; i++) {
		static char other[400];
		char line[40], *rest = line;
		struct yds_word words[MOST_WORDS];
		size_t count = 0, length = 0;
		strcpy(line, commands[i]);
		for (char *word; (word = strsep(&rest, " ")) != NULL;)
			words[count++] = (struct yds_word){word, strlen(word)};
		int status = yds_answer(words, count, "", 0, 1, 2, other, sizeof other, &length);
		int null_status = yds_answer(words, count, NULL, 0, 1, 2, room, sizeof room, &needed);
		judge(commands[i], null_status == status && needed == length && memcmp(room, other, length) == 0 ? NULL : "another answer to a null input");
	}
	needed = 4711;
	judge("nothing at all", yds_answer(NULL, 0, NULL, 0, 1, 2, NULL, 0, &needed) == YDS_USAGE && needed > sizeof usage ? NULL : "another answer");
	judge("the version", strcmp(yds_version(), YDS_VERSION) == 0 ? NULL : "another version than the header's");
}

/* Documents whose texts are as long as can be for their inputs: one job to a line of 12 bytes, and names of 64 bytes. */
static void try_rooms(void) {
	static char input[MOST_JOBS * 110], name[64];
	static const char *const commands[] = {"plan", "round", "avr --grid 720719", "oa --grid 999983", "compare --grid 999983", "admit 1", "admit 1000000", "report", "report --json", "curve"};
	memset(name, '~', sizeof name);
	for (int width = 0; width <= 60; width += 60)
		for (int jobs = 1; jobs <= MOST_JOBS; jobs = jobs * 5 / 2 + 1) {
			size_t length = (size_t)sprintf(input, "point 0 1\npoint 1 2\npoint 4000 1000000\n");
			for (int i = 0; i < jobs; i++)
				length += (size_t)sprintf(input + length, "job %.*s%x %d %d %d\n", width, name, (unsigned)i, i % 97, i % 97 + 1 + i % 89 * 7, i * 31 % 1009);
			for (size_t i = 0; i < sizeof commands / sizeof commands[0]; i++) {
				char line[40], *rest = line;
				struct yds_word words[MOST_WORDS];
				size_t count = 0, needed = 0;
				strcpy(line, commands[i]);
				for (char *word; (word = strsep(&rest, " ")) != NULL;)
					words[count++] = (struct yds_word){word, strlen(word)};
				int status = yds_answer(words, count, input, length, 1, 2, NULL, 0, &needed);
				judge(commands[i], status <= YDS_NO && needed <= YDS_ROOM(length) ? NULL : "a longer text than yds.h says");
			}
		}
}

/* Threads */

static void *in_a_thread(void *fault) {
	for (size_t round = 0; round < ROUNDS; round++)
		for (size_t i = 0; i < row_count - (round > 0 ? LARGE_ROWS : 0); i++) {
			size_t size = rows[i].answer.length + round;
			char *space = malloc(size + 2 * GUARD + 8);
			const char *found = space ? call(&rows[i], rows[i].status, &rows[i].answer, size, space) : "out of memory";
			free(space);
			if (found)
				*(const char **)fault = found;
		}
	return NULL;
}

static void try_threads(void) {
	add_large_rows(MOST_JOBS);
	pthread_t threads[THREADS];
	const char *faults[THREADS] = {NULL};
	pthread_attr_t small;
	pthread_attr_init(&small);
	if (pthread_attr_setstacksize(&small, STACK) != 0) {
		judge("threads", "no stack of this size");
		return;
	}
	size_t begun = 0;
	while (begun < THREADS && pthread_create(&threads[begun], &small, in_a_thread, &faults[begun]) == 0)
		begun++;
	for (size_t i = 0; i < begun; i++)
		pthread_join(threads[i], NULL);
	for (size_t i = 0; i < THREADS; i++)
		judge("threads", i < begun ? faults[i] : "a thread that can't be begun");
}

/* Memory */

#ifdef REFUSING

extern void *__real_malloc(size_t size);
extern void *__real_realloc(void *block, size_t size);
extern void __real_free(void *block);

static int counting;
static unsigned long allocations, refused, refused_from;
static long held;

/* Counts an allocation of the call. Whether it is refused. */
static int refuses(void) {
	if (!counting)
		return 0;
	allocations++;
	return allocations == refused || (refused_from > 0 && allocations >= refused_from);
}

void *__wrap_malloc(size_t size) {
	void *block = refuses() ? NULL : __real_malloc(size);
	held += counting && block;
	return block;
}

void *__wrap_realloc(void *block, size_t size) {
	void *moved = refuses() ? NULL : __real_realloc(block, size);
	held += counting && moved && !block;
	return moved;
}

void __wrap_free(void *block) {
	held -= counting && block;
	__real_free(block);
}

static const struct text nothing = {"", 0};

static void count_anew(unsigned long one, unsigned long from) {
	allocations = 0;
	refused = one;
	refused_from = from;
	held = 0;
	counting = 1;
}

/* Makes the call with one allocation refused, or all from one on. Then there is no answer; or the whole answer, where there was another way, as for a
 * sort. */
static const char *call_without(const struct row *row, unsigned long one, unsigned long from, char *space) {
	count_anew(one, from);
	const char *fault = call(row, YDS_MEMORY, &nothing, row->answer.length, space);
	if (fault) {
		count_anew(one, from);
		fault = call(row, row->status, &row->answer, row->answer.length, space);
	}
	counting = 0;
	return fault ? fault : held != 0 ? "memory is held" : NULL;
}

static unsigned long refusals;

static void refuse_each(const struct row *row) {
	char *space = have(malloc(row->answer.length + 2 * GUARD + 8));
	count_anew(0, 0);
	const char *fault = call(row, row->status, &row->answer, row->answer.length, space);
	counting = 0;
	judge(row->name, fault ? fault : held != 0 ? "memory is held" : NULL);
	unsigned long wanted = allocations;
	for (unsigned long number = 1; number <= wanted; number++) {
		judge(row->name, call_without(row, number, 0, space));
		judge(row->name, call_without(row, 0, number, space));
		refusals += 2;
	}
	free(space);
}

static void try_memory(void) {
	add_large_rows(JOBS);
	for (size_t i = 0; i < row_count; i++)
		refuse_each(&rows[i]);
	printf("%lu refusals\n", refusals);
}

#endif

int main(int count, char **words) {
	if (count == 3)
		load_rows(words[2]);
	if (count == 3 && strcmp(words[1], "rows") == 0)
		try_rows();
	else if (count == 3 && strcmp(words[1], "threads") == 0)
		try_threads();
	else if (count == 2 && strcmp(words[1], "words") == 0) {
		try_words();
		try_nulls();
		try_rooms();
	}
#ifdef REFUSING
	else if (count == 3 && strcmp(words[1], "memory") == 0)
		try_memory();
#endif
	else {
		fprintf(stderr, "usage: answers rows ROWS | threads ROWS | words | memory ROWS\n");
		return 2;
	}
	printf("%lu passed, %lu failed\n", passed, failed);
	return failed > 0;
}
