/* What the program asks of the system's files, by tools/portable/program_os.h: with the module's numbers in, and Linux's out.
 * The argument is a folder that is empty, by its whole name. What is stored is read here byte by byte. */
#define PIECE 0
#ifndef _GNU_SOURCE
#define _GNU_SOURCE 1
#endif
#ifndef _FILE_OFFSET_BITS
#define _FILE_OFFSET_BITS 64
#endif
#include "../../tools/portable/prelude.h"

static uint64_t load(const byte *p, int bytes) { return bytes == 0 ? 0 : load(p + 1, bytes - 1) << 8 | *p; }
static void store(byte *p, uint64_t v, int bytes)
{
	for (int k = 0; k < bytes; k++)
		p[k] = (byte)(v >> 8 * k);
}
static uint64_t load64u(const byte *p) { return load(p, 8); }
static void store64u(byte *p, uint64_t v) { store(p, v, 8); }
static void store32u(byte *p, uint32_t v) { store(p, v, 4); }
static void store16u(byte *p, uint16_t v) { store(p, v, 2); }
#include "../../tools/portable/program_os.h"

#include "check.h"

enum { READS = 0x80100, OPENS = 0x80142, CREATES = 0x801c2, LOCKS = 6, STATX = 256, MASK = 0xfff, PATH = 4096 };
#define FAILED UINT32_MAX
#define FAILS_WITH(call, number) (errno = 0, (call) == FAILED && rattle_errno() == (number))

static const char *folder;
static byte names[4][PATH];

/* A name in the folder. It stays until the fourth one after it. */
static const byte *in_folder(const char *name)
{
	static int next;
	byte *made = names[next++ % 4];

	CHECK(snprintf((char *)made, PATH, "%s/%s", folder, name) < PATH);
	return made;
}

/* Linux's number of a device, of the two that statx tells. */
static uint64_t device(const byte *p)
{
	const uint64_t high = load(p, 4), low = load(p + 4, 4);

	return (high & 0xfffff000u) << 32 | (high & 0xfffu) << 8 | (low & 0xffffff00u) << 12 | (low & 0xffu);
}

/* What is stored are the fields of POSIX, and zeros elsewhere. */
static void tells(const byte *p, const struct stat *found)
{
	CHECK(load(p, 4) == 0x7ff && load(p + 4, 4) == (uint64_t)found->st_blksize && load(p + 8, 8) == 0);
	CHECK(load(p + 16, 4) == found->st_nlink && load(p + 20, 4) == found->st_uid && load(p + 24, 4) == found->st_gid);
	CHECK(load(p + 28, 2) == found->st_mode && load(p + 30, 2) == 0 && load(p + 32, 8) == (uint64_t)found->st_ino);
	CHECK(load(p + 40, 8) == (uint64_t)found->st_size && load(p + 48, 8) == (uint64_t)found->st_blocks && load(p + 56, 8) == 0);
	CHECK(load(p + 64, 8) == (uint64_t)found->st_atim.tv_sec && load(p + 72, 8) == (uint64_t)found->st_atim.tv_nsec);
	CHECK(load(p + 80, 8) == 0 && load(p + 88, 8) == 0);
	CHECK(load(p + 96, 8) == (uint64_t)found->st_ctim.tv_sec && load(p + 104, 8) == (uint64_t)found->st_ctim.tv_nsec);
	CHECK(load(p + 112, 8) == (uint64_t)found->st_mtim.tv_sec && load(p + 120, 8) == (uint64_t)found->st_mtim.tv_nsec);
	CHECK(device(p + 128) == (uint64_t)found->st_rdev && device(p + 136) == (uint64_t)found->st_dev);
	for (int k = 144; k < STATX; k++)
		CHECK(p[k] == 0);
}

/* Each field has a number of its own. */
static void tells_each_field(void)
{
	struct stat made;
	byte p[STATX];

	memset(&made, 0, sizeof made);
	made.st_blksize = 0x01020304, made.st_nlink = 0x0506, made.st_uid = 0x0708090a, made.st_gid = 0x0b0c0d0e;
	made.st_mode = 0100751, made.st_ino = 0x11121314, made.st_size = 0x15161718, made.st_blocks = 0x191a1b1c;
	made.st_atim.tv_sec = 0x21222324, made.st_atim.tv_nsec = 0x25262728, made.st_ctim.tv_sec = -0x292a2b2c;
	made.st_ctim.tv_nsec = 0x2d2e2f30, made.st_mtim.tv_sec = 0x31323334, made.st_mtim.tv_nsec = 0x35363738;
	made.st_rdev = 0x41424344, made.st_dev = 0x45464748;
	memset(p, 255, sizeof p);
	put_stat(p, &made);
	tells(p, &made);
}

/* Of the journal, which has 4 bytes then, it stores what the system tells. */
static void tells_of(uint32_t fd, const byte *name, uint32_t flags)
{
	struct stat found;
	byte p[STATX];

	memset(p, 255, sizeof p);
	CHECK(os_statx(fd, name, flags, MASK, p) == 0 && stat((const char *)in_folder("journal"), &found) == 0);
	CHECK(found.st_size == 4 && found.st_mode == 0100644);
	tells(p, &found);
}

/* Each bit of a device's number is kept. */
static void keeps_devices(void)
{
	byte p[8];

	for (int k = 0; k < 64; k++) {
		put_device(p, UINT64_C(1) << k);
		CHECK(device(p) == UINT64_C(1) << k);
	}
}

static void reads_and_writes(uint32_t file)
{
	byte bytes[16];

	CHECK(os_pwrite(file, (const byte *)"journal", 7, 0) == 7 && os_pwrite(file, (const byte *)"end", 3, 9) == 3);
	memset(bytes, 1, sizeof bytes);
	CHECK(os_pread(file, bytes, 16, 2) == 10 && memcmp(bytes, "urnal\0\0end\1", 11) == 0);
	CHECK(os_ftruncate(file, 4) == 0 && os_pread(file, bytes, 16, 0) == 4 && os_pread(file, bytes, 16, 4) == 0);
	CHECK(os_lseek(file, 0, 1) == 0 && os_read(file, bytes, 16) == 4 && memcmp(bytes, "jour", 4) == 0);
	CHECK(os_fsync(file) == 0 && os_fdatasync(file) == 0);
}

/* What off_t can't hold is too large, and a number below 0 is none. Nothing is written then. */
static void keeps_to_offsets(uint32_t file)
{
	const uint32_t refuses_below_0 = 22, refuses_large = 27;
	const uint64_t large = UINT64_C(1) << 32, below_0 = UINT64_MAX;

	CHECK(FAILS_WITH((uint32_t)os_pwrite(file, (const byte *)"x", 1, below_0), refuses_below_0));
	CHECK(FAILS_WITH(os_ftruncate(file, below_0), refuses_below_0));
	if (sizeof(off_t) == 8) {
		CHECK(os_ftruncate(file, large + 3) == 0 && os_lseek(file, 0, 2) == large + 3 && os_ftruncate(file, 4) == 0);
		return;
	}
	CHECK(FAILS_WITH((uint32_t)os_pwrite(file, (const byte *)"x", 1, large), refuses_large));
	CHECK(FAILS_WITH((uint32_t)os_pread(file, names[0], 1, large), refuses_large));
	CHECK(FAILS_WITH(os_ftruncate(file, large), refuses_large));
}

/* A file that is open twice is locked once. */
static void locks(uint32_t file)
{
	const uint32_t other = os_open(in_folder("journal"), OPENS, 0666u);

	CHECK(other != FAILED && os_flock(file, LOCKS) == 0 && os_flock(file, LOCKS) == 0);
	CHECK(FAILS_WITH(os_flock(other, LOCKS), 11));
	CHECK(os_close(file) == 0 && os_flock(other, LOCKS) == 0 && os_close(other) == 0);
}

/* The name without links of a link to the file, and of one to nothing. */
static void resolves(void)
{
	byte resolved[PATH];

	CHECK(symlink("journal", (const char *)in_folder("link")) == 0 && symlink("gone", (const char *)in_folder("broken")) == 0);
	CHECK(os_realpath(in_folder("link"), resolved) == resolved);
	CHECK(strcmp((const char *)resolved, (const char *)in_folder("journal")) == 0);
	errno = 0;
	CHECK(os_realpath(in_folder("broken"), resolved) == NULL && rattle_errno() == 2);
}

static void renames_and_removes(void)
{
	const uint32_t at = (uint32_t)-100, of_folder = os_open((const byte *)folder, READS);
	byte old[STATX], p[STATX];

	CHECK(os_statx(at, in_folder("new"), 0, MASK, old) == 0 && os_rename(in_folder("new"), in_folder("journal")) == 0);
	CHECK(of_folder != FAILED && os_fsync(of_folder) == 0);
	CHECK(os_statx(at, in_folder("link"), 0, MASK, p) == 0 && load(p + 32, 8) == load(old + 32, 8));
	CHECK(FAILS_WITH(os_statx(at, in_folder("new"), 0, MASK, p), 2) && FAILS_WITH(os_unlink(in_folder("new")), 2));
	CHECK(os_statx(of_folder, (const byte *)"", 0x1000, MASK, p) == 0 && (load(p + 28, 2) & 0170000) == 040000);
	CHECK(FAILS_WITH(os_open((const byte *)folder, OPENS, 0666u), 21) && os_close(of_folder) == 0);
	CHECK(os_unlink(in_folder("journal")) == 0 && FAILS_WITH(os_open(in_folder("journal"), READS), 2));
	CHECK(FAILS_WITH(os_fsync(of_folder), 9));
}

int main(int argc, char **argv)
{
	uint32_t file, new_file;
	byte p[STATX];

	CHECK(argc == 2);
	folder = argv[1];
	umask(022);
	keeps_devices();
	tells_each_field();
	CHECK(FAILS_WITH(os_open(in_folder("journal"), READS), 2));
	file = os_open(in_folder("journal"), OPENS, 0666u);
	CHECK(file != FAILED && (fcntl((int)file, F_GETFD) & FD_CLOEXEC) != 0);
	reads_and_writes(file);
	keeps_to_offsets(file);
	tells_of(file, (const byte *)"", 0x1000);
	tells_of((uint32_t)-100, in_folder("journal"), 0);
	locks(file);
	resolves();
	CHECK(FAILS_WITH(os_open(in_folder("journal"), CREATES, 0600u), 17));
	new_file = os_open(in_folder("new"), CREATES, 0640u);
	CHECK(os_statx(new_file, (const byte *)"", 0x1000, MASK, p) == 0 && load(p + 28, 2) == 0100640);
	CHECK(os_fchmod(new_file, 0600) == 0 && os_statx(new_file, (const byte *)"", 0x1000, MASK, p) == 0);
	CHECK(load(p + 28, 2) == 0100600 && os_close(new_file) == 0);
	renames_and_removes();
	return 0;
}
