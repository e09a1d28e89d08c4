/*
 * library.c: how often a second a document is answered by the library, or by the program.
 *
 *   library call DOCUMENT WORD ..
 *   library process DOCUMENT PROGRAM WORD ..
 *
 * Writes the most answers a second of 101 rounds of a fiftieth of a second each, by the clock: in short rounds some are spared by the machine's other work. A call's
 * answer lies in memory then. A process has the document as its standard input and leaves its answer in a file in memory, and is waited for.
 */
#define _GNU_SOURCE
#include <fcntl.h>
#include <spawn.h>
#include <stdio.h>
#include <stdlib.h>
#include <string.h>
#include <sys/mman.h>
#include <sys/wait.h>
#include <time.h>
#include <unistd.h>
#include <yds.h>

enum { MOST_WORDS = 8, ROUNDS = 101 };

extern char **environ;

static char document[1 << 23], room[1 << 23];
static size_t length;
static struct yds_word given[MOST_WORDS];
static size_t given_count;
static char **program;
static int input_file, output_file;

static void fail(const char *what) {
	fprintf(stderr, "library: %s\n", what);
	exit(2);
}

static double now(void) {
	struct timespec time;
	clock_gettime(CLOCK_MONOTONIC, &time);
	return (double)time.tv_sec + (double)time.tv_nsec / 1e9;
}

static void call(void) {
	size_t needed;
	if (yds_answer(given, given_count, document, length, 1, 2, room, sizeof room, &needed) != YDS_DONE || needed > sizeof room)
		fail("a call without an answer");
}

static void process(void) {
	int status;
	pid_t child;
	posix_spawn_file_actions_t actions;
	if (lseek(input_file, 0, SEEK_SET) < 0 || lseek(output_file, 0, SEEK_SET) < 0)
		fail("a file in memory can't be wound back");
	posix_spawn_file_actions_init(&actions);
	posix_spawn_file_actions_adddup2(&actions, input_file, 0);
	posix_spawn_file_actions_adddup2(&actions, output_file, 1);
	if (posix_spawn(&child, program[0], &actions, NULL, program, environ) != 0 || waitpid(child, &status, 0) < 0 || status != 0)
		fail("a process without an answer");
	posix_spawn_file_actions_destroy(&actions);
}

static double most_a_second(void (*once)(void)) {
	double most = 0;
	once();
	for (int round = 0; round < ROUNDS; round++) {
		double begun = now(), past;
		unsigned long times = 0;
		do {
			once();
			times++;
			past = now() - begun;
		} while (past < 0.02);
		if ((double)times / past > most)
			most = (double)times / past;
	}
	return most;
}

int main(int count, char **words) {
	FILE *file = count > 3 && count <= MOST_WORDS + 3 ? fopen(words[2], "rb") : NULL;
	if (!file)
		fail("usage: library call DOCUMENT WORD .. | library process DOCUMENT PROGRAM WORD ..");
	length = fread(document, 1, sizeof document, file);
	fclose(file);
	int by_process = strcmp(words[1], "process") == 0;
	if (by_process) {
		program = words + 3;
		input_file = memfd_create("input", MFD_CLOEXEC);
		output_file = memfd_create("output", MFD_CLOEXEC);
		if (input_file < 0 || output_file < 0 || write(input_file, document, length) != (ssize_t)length)
			fail("no files in memory");
	} else {
		for (int word = 3; word < count; word++)
			given[given_count++] = (struct yds_word){words[word], strlen(words[word])};
	}
	printf("%.0f\n", most_a_second(by_process ? process : call));
	return 0;
}
