/*
 * measure.c: times programs, by turns.
 *
 *   measure TIMES DOCUMENT PROGRAM WORD .. [-- DOCUMENT PROGRAM WORD ..] ..
 *
 * Writes a line for each of the runs that `--` parts: the least milliseconds of the processor of TIMES runs of the program over the
 * document, the greatest memory of a run in megabytes, and the status that the last one ended with. What the programs write is
 * thrown away.
 */
#define _GNU_SOURCE
#include <fcntl.h>
#include <stdio.h>
#include <stdlib.h>
#include <string.h>
#include <sys/resource.h>
#include <sys/wait.h>
#include <unistd.h>

enum { MOST = 16 };

struct run {
	char **words;  /* the document, the program and its words, ended by a null pointer */
	double milliseconds;
	double megabytes;
	int status;
};

static double milliseconds(struct timeval time) { return time.tv_sec * 1e3 + time.tv_usec / 1e3; }

static void once(struct run *run) {
	struct rusage used;
	int status;
	pid_t child = vfork();
	if (child == 0) {
		int input = open(run->words[0], O_RDONLY), output = open("/dev/null", O_WRONLY);
		if (input < 0 || output < 0 || dup2(input, 0) < 0 || dup2(output, 1) < 0)
			_exit(126);
		execv(run->words[1], run->words + 1);
		_exit(127);
	}
	if (child < 0 || wait4(child, &status, 0, &used) < 0)
		exit(2);
	double time = milliseconds(used.ru_utime) + milliseconds(used.ru_stime), memory = used.ru_maxrss * 1024 / 1e6;
	if (time < run->milliseconds)
		run->milliseconds = time;
	if (memory > run->megabytes)
		run->megabytes = memory;
	run->status = WIFEXITED(status) ? WEXITSTATUS(status) : 128 + WTERMSIG(status);
}

int main(int count, char **words) {
	struct run runs[MOST];
	int known = 0, times = count > 1 ? atoi(words[1]) : 0;
	for (int at = 2; at < count && known < MOST; at++) {
		runs[known++] = (struct run){words + at, 1e9, 0, 0};
		while (at < count && strcmp(words[at], "--") != 0)
			at++;
		words[at] = NULL;
		if (runs[known - 1].words[0] == NULL || runs[known - 1].words[1] == NULL)
			times = 0;
	}
	if (times < 1 || known == 0) {
		fprintf(stderr, "usage: measure TIMES DOCUMENT PROGRAM WORD .. [-- DOCUMENT PROGRAM WORD ..] ..\n");
		return 2;
	}
	while (times-- > 0)
		for (int i = 0; i < known; i++)
			once(&runs[i]);
	for (int i = 0; i < known; i++)
		printf("%.2f %.1f %d\n", runs[i].milliseconds, runs[i].megabytes, runs[i].status);
	return 0;
}
