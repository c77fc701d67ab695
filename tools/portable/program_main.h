
/* The program's arguments, and its start. */
static int arguments_count;
static char **arguments;

/* Writes the argument with this index to the front of the buffer, and returns its length. Returns -1 if there is none,
 * and -2 if there is no room for all of it: then the buffer is full. */
OWN uint64_t rattle_arg(uint64_t index, byte *buffer, uint64_t room)
{
	size_t length;
	if (index >= (uint64_t)arguments_count)
		return (uint64_t)-1;
	length = strlen(arguments[index]);
	memcpy(buffer, arguments[index], length < room ? length : (size_t)room);
	return length <= room ? length : (uint64_t)-2;
}

int main(int argc, char **argv)
{
	arguments_count = argc;
	arguments = argv;
	return (int)tp_timers_program_main();
}
