/* A page has no files and no terminal: nothing is there to be read, and what a journal needs is refused. */
#include <errno.h>
#include <stdio.h>
#include <stdlib.h>
#include <sys/file.h>
#include <sys/stat.h>
#include <unistd.h>
#define O_RDONLY 0
#define O_RDWR 2
#define O_CREAT 0100
#define O_EXCL 0200
static inline int page_open(const char *name, int flags, ...)
{
	(void)name;
	errno = (flags & O_RDWR) == 0 ? ENOENT : ENOSYS;
	return -1;
}
static inline int page_close(int file) { (void)file; return 0; }
static inline long long page_lseek(int file, long long at, int from) { (void)file; (void)at; (void)from; return -1; }
static inline int page_isatty(int file) { (void)file; return 0; }
static inline int page_refuses(void) { errno = ENOSYS; return -1; }
#define isatty page_isatty
#define open page_open
#define close page_close
#undef lseek
#define lseek page_lseek
#undef S_IFMT
#define S_IFMT 0170000
#define pread(file, bytes, count, at) page_refuses()
#define pwrite(file, bytes, count, at) page_refuses()
#define ftruncate(file, length) page_refuses()
#define fsync(file) page_refuses()
#define fdatasync(file) page_refuses()
#define fchmod(file, mode) page_refuses()
#define flock(file, operation) page_refuses()
#define fstat(file, found) page_refuses()
#define stat(name, found) page_refuses()
#define rename(from, to) page_refuses()
#define unlink(name) page_refuses()
#define realpath(name, resolved) (page_refuses(), (char *)NULL)
