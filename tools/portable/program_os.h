/* What the program asks of its system, over POSIX: reading and writing, files, threads, and to ignore a signal. By hand. The
 * module has the calls as glibc has them on x86-64; here each is one of C, so that sizes and types are those of the platform. */
#include <errno.h>
#include <fcntl.h>
#include <pthread.h>
#include <sched.h>
#include <stdarg.h>
#include <stdio.h>
#include <sys/file.h>
#include <sys/stat.h>
#include <unistd.h>
#if EAGAIN != 11 || ENOMEM != 12 || EINTR != 4 || EPIPE != 32 || EPERM != 1 || ENOENT != 2 || EACCES != 13 || EEXIST != 17 \
	|| EXDEV != 18 || ENOTDIR != 20 || EISDIR != 21 || EINVAL != 22 || EFBIG != 27 || ENOSPC != 28 || EROFS != 30 \
	|| ENAMETOOLONG != 36 || ENOSYS != 38 || ELOOP != 40 || EDQUOT != 122 || EWOULDBLOCK != EAGAIN
#error "the numbers of errors are not those of Linux"
#endif
#if S_IFMT != 0170000 || S_IFREG != 0100000 || S_IFDIR != 040000
#error "the kinds of files are not those of Linux"
#endif
#if !defined PATH_MAX || PATH_MAX > 4096
#error "a path takes more bytes than the module has for one"
#endif

/* The file can be compiled in pieces, side by side: 16 times, with PIECE from 0 to 15. What is OWN is in one of them, and
 * the others call it. Nothing outside of the program sees it. */
#if !defined PIECE
#define OWN static
#elif defined(__GNUC__) && !defined(_WIN32)
#define OWN __attribute__((visibility("hidden")))
#else
#define OWN
#endif
#if defined PIECE && defined(__GNUC__)
#pragma GCC diagnostic ignored "-Wunused-function"
#pragma GCC diagnostic ignored "-Wunused-const-variable"
#endif

OWN uint64_t rattle_arg(uint64_t index, byte *buffer, uint64_t room);
static uint32_t rattle_errno(void) { return (uint32_t)errno; }
static void rattle_set_errno(uint32_t error) { errno = (int)error; }
static size_t count_of(uint64_t n) { return n > SIZE_MAX / 2 ? SIZE_MAX / 2 : (size_t)n; }
static uint64_t os_read(uint32_t fd, byte *p, uint64_t n) { return (uint64_t)(int64_t)read((int)fd, p, count_of(n)); }
static uint64_t os_write(uint32_t fd, const byte *p, uint64_t n) { return (uint64_t)(int64_t)write((int)fd, p, count_of(n)); }

/* The module opens a file or a folder to read alone, with what are O_RDONLY, O_NOCTTY and O_CLOEXEC on x86-64. A journal it
 * opens with O_RDWR and O_CREAT in place of O_RDONLY, and a new one with O_EXCL too: their mode is the third argument. Other
 * flags are those of calls that the program doesn't make. */
#ifndef O_CLOEXEC
#define O_CLOEXEC 0
#endif
#ifndef O_NOCTTY
#define O_NOCTTY 0
#endif
#ifndef O_BINARY
#define O_BINARY 0
#endif
static uint32_t os_open(const byte *name, uint32_t flags, ...)
{
	const int always = O_NOCTTY | O_CLOEXEC | O_BINARY;
	va_list rest;
	mode_t mode;

	if (flags == 0x80100)
		return (uint32_t)open((const char *)name, O_RDONLY | always);
	if (flags != 0x80142 && flags != 0x801c2)
		abort();
	va_start(rest, flags);
	mode = (mode_t)va_arg(rest, uint32_t);
	va_end(rest);
	return (uint32_t)open((const char *)name, O_RDWR | O_CREAT | (flags == 0x801c2 ? O_EXCL : 0) | always, mode);
}
static uint32_t os_close(uint32_t fd) { return (uint32_t)close((int)fd); }
static uint64_t os_lseek(uint32_t fd, uint64_t offset, uint32_t whence) { return (uint64_t)(int64_t)lseek((int)fd, (off_t)(int64_t)offset, (int)whence); }
static uint32_t os_isatty(uint32_t fd) { return (uint32_t)isatty((int)fd); }
static void os__exit(uint32_t status) { _exit((int)status); }
static void os_abort(void) { abort(); }
static byte *os_malloc(uint64_t n) { return n > SIZE_MAX / 2 ? NULL : (byte *)malloc((size_t)n); }
static void os_free(byte *p) { free(p); }
static uint32_t os_sched_yield(void) { return (uint32_t)sched_yield(); }

/* Of a journal. An offset that off_t can't hold is past what the system writes to a file. */
INLINE bool is_offset(uint64_t at)
{
	if ((uint64_t)(int64_t)(off_t)(int64_t)at == at)
		return true;
	errno = EFBIG;
	return false;
}
INLINE uint64_t os_pread(uint32_t fd, byte *p, uint64_t n, uint64_t at)
{
	return is_offset(at) ? (uint64_t)(int64_t)pread((int)fd, p, count_of(n), (off_t)(int64_t)at) : UINT64_MAX;
}
INLINE uint64_t os_pwrite(uint32_t fd, const byte *p, uint64_t n, uint64_t at)
{
	return is_offset(at) ? (uint64_t)(int64_t)pwrite((int)fd, p, count_of(n), (off_t)(int64_t)at) : UINT64_MAX;
}
INLINE uint32_t os_ftruncate(uint32_t fd, uint64_t length)
{
	return is_offset(length) ? (uint32_t)ftruncate((int)fd, (off_t)(int64_t)length) : UINT32_MAX;
}
INLINE uint32_t os_fsync(uint32_t fd) { return (uint32_t)fsync((int)fd); }
INLINE uint32_t os_fdatasync(uint32_t fd) { return (uint32_t)fdatasync((int)fd); }
INLINE uint32_t os_fchmod(uint32_t fd, uint32_t mode) { return (uint32_t)fchmod((int)fd, (mode_t)mode); }
INLINE uint32_t os_rename(const byte *from, const byte *to) { return (uint32_t)rename((const char *)from, (const char *)to); }
INLINE uint32_t os_unlink(const byte *name) { return (uint32_t)unlink((const char *)name); }
INLINE byte *os_realpath(const byte *name, byte *resolved) { return (byte *)realpath((const char *)name, (char *)resolved); }

/* The lock that it takes is LOCK_EX, with LOCK_NB. It is given up when the file is closed. */
INLINE uint32_t os_flock(uint32_t fd, uint32_t operation)
{
	if (operation != 6)
		abort();
	return (uint32_t)flock((int)fd, LOCK_EX | LOCK_NB);
}

/* What is known of an open file (an empty path with AT_EMPTY_PATH), or of one with a name, from AT_FDCWD on. The module has
 * Linux's struct statx, in which a device has two numbers. All fields of POSIX's stat are asked for, which are the mask's lower
 * 11 bits, and when the file was made, which nobody tells here. */
INLINE void put_device(byte *p, uint64_t device)
{
	store32u(p, (uint32_t)(device >> 32 & 0xfffff000u) | (uint32_t)(device >> 8 & 0xfffu));
	store32u(p + 4, (uint32_t)(device >> 12 & 0xffffff00u) | (uint32_t)(device & 0xffu));
}
INLINE void put_time(byte *p, const struct timespec *time)
{
	store64u(p, (uint64_t)(int64_t)time->tv_sec);
	store32u(p + 8, (uint32_t)time->tv_nsec);
}
INLINE void put_stat(byte *p, const struct stat *found)
{
	memset(p, 0, 256);
	store32u(p, 0x7ff);
	store32u(p + 4, (uint32_t)found->st_blksize);
	store32u(p + 16, (uint32_t)found->st_nlink);
	store32u(p + 20, (uint32_t)found->st_uid);
	store32u(p + 24, (uint32_t)found->st_gid);
	store16u(p + 28, (uint16_t)found->st_mode);
	store64u(p + 32, (uint64_t)found->st_ino);
	store64u(p + 40, (uint64_t)found->st_size);
	store64u(p + 48, (uint64_t)found->st_blocks);
	put_time(p + 64, &found->st_atim);
	put_time(p + 96, &found->st_ctim);
	put_time(p + 112, &found->st_mtim);
	put_device(p + 128, (uint64_t)found->st_rdev);
	put_device(p + 136, (uint64_t)found->st_dev);
}
INLINE uint32_t os_statx(uint32_t fd, const byte *name, uint32_t flags, uint32_t mask, byte *p)
{
	const bool is_open = flags == 0x1000 && *name == 0;
	struct stat found;

	if (mask != 0xfff || (!is_open && (flags != 0 || fd != (uint32_t)-100)))
		abort();
	if ((is_open ? fstat((int)fd, &found) : stat((const char *)name, &found)) != 0)
		return UINT32_MAX;
	put_stat(p, &found);
	return 0;
}

/* All that it asks for is signal(SIGPIPE, SIG_IGN). SIGPIPE stays as the caller left it: by default a pipe that nobody reads
 * ends the program without a line, as it ends other filters. Where the caller ignores it, the write fails. */
static uint64_t os___sysv_signal(uint32_t number, uint64_t handler)
{
	if (number != 13 || handler != 1)
		abort();
	return 0;
}

/* Of a thread's attributes the module sets the size of the guard alone: it is kept in the first 8 bytes of those that the
 * module has for them. A thread's name takes 8 bytes in memory, and is there before it runs. */
static uint32_t os_pthread_attr_init(byte *attributes) { store64u(attributes, 0); return 0; }
static uint32_t os_pthread_attr_destroy(byte *attributes) { (void)attributes; return 0; }
static uint32_t os_pthread_attr_setguardsize(byte *attributes, uint64_t n) { store64u(attributes, n); return 0; }
static uint32_t os_pthread_create(byte *thread, byte *attributes, byte *run, byte *with)
{
	const uint64_t guard = load64u(attributes);
	pthread_attr_t made;
	int error = pthread_attr_init(&made);

	if (error != 0)
		return (uint32_t)error;
	if (guard != 0)
		error = pthread_attr_setguardsize(&made, (size_t)guard);
	memset(thread, 0, 8);
	if (error == 0)
		error = pthread_create((pthread_t *)(void *)thread, &made, (void *(*)(void *))(uintptr_t)run, with);
	pthread_attr_destroy(&made);
	return (uint32_t)error;
}
static uint32_t os_pthread_join(uint64_t thread, byte *result) { (void)result; return (uint32_t)pthread_join((pthread_t)(uintptr_t)thread, NULL); }
static uint32_t os_pthread_detach(uint64_t thread) { return (uint32_t)pthread_detach((pthread_t)(uintptr_t)thread); }
static uint64_t os_pthread_self(void) { return (uint64_t)(uintptr_t)pthread_self(); }
