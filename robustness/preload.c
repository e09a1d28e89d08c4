/*
 * preload.c: stands between a program and the C library, and refuses what the environment names.
 *
 *   FAULT_ALLOCATION=N    the allocation of this number, counted from 1, finds no memory
 *   FAULT_MEMORY_FROM=N   so does each from this number on
 *   FAULT_READ=N          the read of this number fails; FAULT_READ_MOST=K: each read gives at most K bytes
 *   FAULT_WRITE=N         the write of this number fails; FAULT_WRITE_MOST=K: each write takes at most K bytes
 *   FAULT_WRITES_FROM=N   so does each from this number on
 *   FAULT_RANDOM=1        the machine gives no random bytes
 *   FAULT_ERROR=E         with this errno; 5 (EIO) without it
 *   FAULT_COUNTS=FILE     at the end the file has one line: the allocations, reads and writes of the run
 *
 * Reads and writes are those of the standard streams: descriptors 0 and 1.
 *
 * cc -O2 -shared -fPIC -o faults.so preload.c; for glibc, whose allocator has a second name for each function.
 */
#include <errno.h>
#include <fcntl.h>
#include <stdlib.h>
#include <string.h>
#include <sys/syscall.h>
#include <sys/uio.h>
#include <unistd.h>

extern void *__libc_malloc(size_t size);
extern void *__libc_calloc(size_t count, size_t size);
extern void *__libc_realloc(void *block, size_t size);
extern void *__libc_memalign(size_t alignment, size_t size);

static long allocations, reads, writes;
static long refused, refused_from, failing_read, failing_write, failing_from, no_random, error;
static size_t read_most, write_most;

/* What the loader takes before the program begins doesn't count. */
static int begun;

/* The number that the environment gives this name, or 0. */
static long setting(const char *name) {
	const char *value = getenv(name);
	return value ? strtol(value, NULL, 10) : 0;
}

__attribute__((constructor)) static void begin(void) {
	refused = setting("FAULT_ALLOCATION");
	refused_from = setting("FAULT_MEMORY_FROM");
	failing_read = setting("FAULT_READ");
	failing_write = setting("FAULT_WRITE");
	failing_from = setting("FAULT_WRITES_FROM");
	read_most = (size_t)setting("FAULT_READ_MOST");
	write_most = (size_t)setting("FAULT_WRITE_MOST");
	no_random = setting("FAULT_RANDOM");
	error = setting("FAULT_ERROR");
	begun = 1;
}

/* Counts an allocation. Whether it is refused. */
static int refuses_memory(void) {
	if (!begun)
		return 0;
	allocations++;
	return allocations == refused || (refused_from > 0 && allocations >= refused_from);
}

static void *no_memory(void) {
	errno = ENOMEM;
	return NULL;
}

void *malloc(size_t size) { return refuses_memory() ? no_memory() : __libc_malloc(size); }

void *calloc(size_t count, size_t size) { return refuses_memory() ? no_memory() : __libc_calloc(count, size); }

void *realloc(void *block, size_t size) { return refuses_memory() ? no_memory() : __libc_realloc(block, size); }

void *memalign(size_t alignment, size_t size) { return refuses_memory() ? no_memory() : __libc_memalign(alignment, size); }

void *aligned_alloc(size_t alignment, size_t size) { return memalign(alignment, size); }

int posix_memalign(void **block, size_t alignment, size_t size) {
	*block = memalign(alignment, size);
	return *block ? 0 : ENOMEM;
}

static ssize_t failed(void) {
	errno = error ? (int)error : EIO;
	return -1;
}

static size_t at_most(size_t most, size_t size) { return most > 0 && most < size ? most : size; }

ssize_t read(int file, void *bytes, size_t size) {
	if (file == 0 && ++reads == failing_read)
		return failed();
	return syscall(SYS_read, file, bytes, file == 0 ? at_most(read_most, size) : size);
}

ssize_t write(int file, const void *bytes, size_t size) {
	if (file == 1 && (++writes == failing_write || (failing_from > 0 && writes >= failing_from)))
		return failed();
	return syscall(SYS_write, file, bytes, file == 1 ? at_most(write_most, size) : size);
}

ssize_t __write(int file, const void *bytes, size_t size) { return write(file, bytes, size); }

ssize_t writev(int file, const struct iovec *parts, int count) {
	for (int i = 0; i < count; i++)
		if (parts[i].iov_len > 0)
			return write(file, parts[i].iov_base, parts[i].iov_len);
	return 0;
}

int getentropy(void *bytes, size_t size) {
	if (no_random)
		return (int)failed();
	return syscall(SYS_getrandom, bytes, size, 0) == (long)size ? 0 : -1;
}

/* One line of the three counts, without stdio, whose buffers would be an allocation. */
__attribute__((destructor)) static void report(void) {
	const char *name = getenv("FAULT_COUNTS");
	long counts[3] = {allocations, reads, writes};
	char line[80];
	size_t end = 0;
	if (!name)
		return;
	for (int i = 0; i < 3; i++) {
		char digits[20];
		int length = 0;
		do
			digits[length++] = (char)('0' + counts[i] % 10);
		while ((counts[i] /= 10) > 0);
		while (length > 0)
			line[end++] = digits[--length];
		line[end++] = i < 2 ? ' ' : '\n';
	}
	int file = open(name, O_WRONLY | O_CREAT | O_TRUNC, 0600);
	if (file >= 0) {
		syscall(SYS_write, file, line, end);
		close(file);
	}
}
