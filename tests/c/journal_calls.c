/* Loaded before a program (LD_PRELOAD), notes in the file JOURNAL_CALLS each call that changes a file, with what it gave:
 *
 *     CALL INODE OFFSET RESULT BYTES\n  and so many bytes, for tests/journal
 *
 * The sync with the number JOURNAL_FAILS fails, the first being 1. A lock is asked for JOURNAL_WAITS microseconds late.
 */
/* SPDX-License-Identifier: MIT OR Apache-2.0 */
#define _GNU_SOURCE
#include <errno.h>
#include <fcntl.h>
#include <stdint.h>
#include <stdio.h>
#include <stdlib.h>
#include <sys/stat.h>
#include <sys/syscall.h>
#include <sys/uio.h>
#include <unistd.h>

static int notes = -1, syncs, fails, waits;

static __attribute__((constructor)) void begin(void)
{
	const char *path = getenv("JOURNAL_CALLS"), *number = getenv("JOURNAL_FAILS"), *time = getenv("JOURNAL_WAITS");
	int file = path ? open(path, O_WRONLY | O_CREAT | O_APPEND, 0600) : -1;
	notes = fcntl(file, F_DUPFD_CLOEXEC, 500);
	close(file);
	fails = number ? atoi(number) : 0;
	waits = time ? atoi(time) : 0;
}

/* Nobody else may see what errno the notes leave. */
static long note(const char *call, ino_t inode, off_t at, const void *bytes, size_t size, long result)
{
	char head[128];
	int error = errno, length = snprintf(head, sizeof head, "%s %ju %jd %ld %zu\n", call, (uintmax_t)inode, (intmax_t)at, result, size);
	struct iovec parts[] = {{head, (size_t)length}, {(void *)bytes, size}};
	if (notes >= 0 && syscall(SYS_writev, notes, parts, 2) < 0)
		abort();
	errno = error;
	return result;
}

static ino_t inode_of(int fd)
{
	struct stat is = {0};
	return fstat(fd, &is) == 0 ? is.st_ino : 0;
}

static long changed(const char *call, int fd, const void *bytes, off_t at, long result)
{
	return note(call, inode_of(fd), at, bytes, bytes && result > 0 ? (size_t)result : 0, result);
}

static int synced(long call, int fd)
{
	if (++syncs == fails) {
		errno = EIO;
		return (int)changed("sync", fd, NULL, 0, -1);
	}
	return (int)changed("sync", fd, NULL, 0, syscall(call, fd));
}

ssize_t write(int fd, const void *bytes, size_t size)
{
	long result = syscall(SYS_write, fd, bytes, size), error = errno;
	off_t behind = fd == 1 ? 0 : lseek(fd, 0, SEEK_CUR);
	errno = (int)error;
	return changed(fd == 1 ? "tell" : "write", fd, bytes, behind - result, result);
}

ssize_t pwrite64(int fd, const void *bytes, size_t size, off_t at)
{
	return changed("write", fd, bytes, at, syscall(SYS_pwrite64, fd, bytes, size, at));
}

ssize_t pwrite(int fd, const void *bytes, size_t size, off_t at) { return pwrite64(fd, bytes, size, at); }

int ftruncate64(int fd, off_t size) { return (int)changed("cut", fd, NULL, size, syscall(SYS_ftruncate, fd, size)); }

int ftruncate(int fd, off_t size) { return ftruncate64(fd, size); }

int fsync(int fd) { return synced(SYS_fsync, fd); }

int fdatasync(int fd) { return synced(SYS_fdatasync, fd); }

int flock(int fd, int how)
{
	usleep((useconds_t)waits);
	return (int)syscall(SYS_flock, fd, how);
}

int rename(const char *from, const char *to)
{
	struct stat is = {0};
	stat(from, &is);
	return (int)note("name", is.st_ino, 0, NULL, 0, syscall(SYS_rename, from, to));
}
