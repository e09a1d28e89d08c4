/*
 * names.c: writes 4,000 names that all come to one group of the program's table of names, if its digest had the keys 0 and 0.
 *
 * The digest is SipHash-1-3 of a name and a byte 255, folded to 32 bits; its low bits choose one of the table's 512 groups. The
 * program draws its keys anew in each run, so whoever writes a document can't aim so. With `names any` the names aren't chosen.
 */
#include <stdint.h>
#include <stdio.h>

enum { NAMES = 4000, LENGTH = 16, FIRST = 10, GROUPS = 512, GROUP = 7 };
static uint64_t v0, v1, v2, v3;

static uint64_t rotated(uint64_t word, int bits) { return word << bits | word >> (64 - bits); }

static void mix(void) {
	v0 += v1;
	v2 += v3;
	v1 = rotated(v1, 13) ^ v0;
	v3 = rotated(v3, 16) ^ v2;
	v0 = rotated(v0, 32);
	v2 += v1;
	v0 += v3;
	v1 = rotated(v1, 17) ^ v2;
	v3 = rotated(v3, 21) ^ v0;
	v2 = rotated(v2, 32);
}

static void take(uint64_t word) {
	v3 ^= word;
	mix();
	v0 ^= word;
}

static uint64_t word_at(const char *bytes) {
	uint64_t word = 0;
	for (int i = 0; i < 8; i++)
		word |= (uint64_t)(unsigned char)bytes[i] << 8 * i;
	return word;
}

/* Of a name of 16 bytes: two whole words, and a third of the byte 255 and the length, 17. */
static uint32_t digest_of(const char *name) {
	v0 = 0x736f6d6570736575;
	v1 = 0x646f72616e646f6d;
	v2 = 0x6c7967656e657261;
	v3 = 0x7465646279746573;
	take(word_at(name));
	take(word_at(name + 8));
	take((uint64_t)(LENGTH + 1) << 56 | 255);
	v2 ^= 255;
	mix();
	mix();
	mix();
	uint64_t digest = v0 ^ v1 ^ v2 ^ v3;
	return (uint32_t)(digest ^ digest >> 32);
}

int main(int count, char **words) {
	char name[LENGTH + 1] = "aaaaaaaaaaaaaaaa";
	int made = 0;
	(void)words;
	for (uint64_t number = 0; made < NAMES; number++) {
		uint64_t rest = number;
		for (int i = LENGTH - 1; i >= FIRST; i--, rest /= 90)
			name[i] = (char)('!' + rest % 90);
		if (count > 1 || digest_of(name) % GROUPS == GROUP) {
			puts(name);
			made++;
		}
	}
	return 0;
}
