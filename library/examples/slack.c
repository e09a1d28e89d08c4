/*
 * slack.c: how much energy do later deadlines save? A loop of a simulator: a document is made, planned on operating points and
 * looked at, for each slack, without a file or a process.
 *
 *   cc -o slack slack.c -lyds
 */
#include <stdio.h>
#include <string.h>
#include <yds.h>

/* Two cameras' frames, each due when the next one comes, and `slack` time units later. Returns the document's length. */
static size_t make_document(char *document, size_t room, int slack) {
	int length = snprintf(document, room, "point 0 2\npoint 2 10\npoint 4 40\npoint 8 160\n");
	for (int frame = 0; frame < 6; frame++) {
		int release = 10 * frame;
		length += snprintf(document + length, room - (size_t)length, "job left%d %d %d %d\n", frame, release, release + 10 + slack, frame % 3 == 0 ? 40 : 15);
		length += snprintf(document + length, room - (size_t)length, "job right%d %d %d 12\n", frame, release + 5, release + 15 + slack);
	}
	return (size_t)length;
}

int main(void) {
	static const struct yds_word words[] = {{"round", 5}};
	static char document[4096], room[65536];

	for (int slack = 0; slack <= 20; slack += 5) {
		size_t needed, length = make_document(document, sizeof document, slack);
		int status = yds_answer(words, 1, document, length, 1, 2, room, sizeof room, &needed);
		if (status > YDS_NO || needed > sizeof room) {
			fprintf(stderr, "slack %d: status %d, %zu bytes\n", slack, status, needed);
			return 1;
		}
		/* The last line has the energy, or says that the points are too slow. */
		size_t last = needed - 1;
		while (last > 0 && room[last - 1] != '\n')
			last--;
		printf("slack %d: %.*s", slack, (int)(needed - last), room + last);
	}
	return 0;
}
