/* The functions of timers_desk.h, as those of timers.h above. */
#define STATUS (enum timers_desk_status)

/* Turns what callers may read of lines, the client, and may set in a desk, the lives. The calls that use them do so before
 * and after. The others use the first two members alone. */
INLINE void turn_desk(struct timers_desk *d, struct timers_line *lines, size_t n)
{
#if SWAPS
	turn(&d->lives, 1);
	for (; n != 0; n--, lines++)
		turn(BYTES(lines) + 16, 2);
#else
	(void)d;
	(void)lines;
	(void)n;
#endif
}

INLINE enum timers_desk_status desk_answered(uint32_t status, uint64_t *answer)
{
	if (status == TIMERS_DESK_OK)
		turn(answer, 1);
	return STATUS status;
}

enum timers_desk_status timers_desk_new(struct timers_desk *d, struct timers_line *lines, size_t clients,
                                        const struct timers_desk_config *config)
{
	uint32_t status;
#if SWAPS || defined(TIMERS_NO_SMOOTH)
	struct timers_desk_config turned;

	memcpy(&turned, config, config->size < sizeof turned ? (size_t)config->size : sizeof turned);
	turn(&turned, 5);
	turned.table = LITTLE32(TABLE(turned.table));
	config = &turned;
#endif
	turn_desk(d, lines, clients);
	status = tm_timers_desk_new(BYTES(d), BYTES(lines), clients, BYTES(config));
	turn_desk(d, lines, clients);
	return STATUS status;
}

enum timers_desk_status timers_desk_settle(struct timers_desk *d, size_t client, struct timers_line *line, uint64_t *standing)
{
	uint32_t status;

	turn_desk(d, line, 1);
	status = tm_timers_desk_settle(BYTES(d), client, BYTES(line), BYTES(standing));
	turn_desk(d, line, 1);
	return desk_answered(status, standing);
}

enum timers_desk_status timers_desk_end(struct timers_desk *d, size_t client, struct timers_line *line, uint64_t *unread)
{
	uint32_t status;

	turn_desk(d, line, 1);
	status = tm_timers_desk_end(BYTES(d), client, BYTES(line), BYTES(unread));
	turn_desk(d, line, 1);
	return desk_answered(status, unread);
}

/* It answers with some failures. So the client is turned before, too, and back if it was not written. */
enum timers_desk_status timers_desk_end_all(struct timers_desk *d, struct timers_line *lines, size_t clients, uint64_t *client)
{
	uint32_t status;

	turn(client, 1);
	turn_desk(d, lines, clients);
	status = tm_timers_desk_end_all(BYTES(d), BYTES(lines), clients, BYTES(client));
	turn_desk(d, lines, clients);
	turn(client, 1);
	return STATUS status;
}

enum timers_desk_status timers_desk_open(struct timers_desk *d, size_t client, struct timers_line *line, size_t room)
{
	uint32_t status;

	turn_desk(d, line, 1);
	status = tm_timers_desk_open(BYTES(d), client, BYTES(line), room);
	turn_desk(d, line, 1);
	return STATUS status;
}

/* made by tools/facts: calls of desks that pass numbers on */
void timers_desk_free(struct timers_desk *d) { tm_timers_desk_free(BYTES(d)); }
enum timers_desk_status timers_desk_serve(struct timers_desk *d, size_t client) { return STATUS tm_timers_desk_serve(BYTES(d), client); }
enum timers_desk_status timers_desk_serve_all(struct timers_desk *d, uint64_t most) { return STATUS tm_timers_desk_serve_all(BYTES(d), most); }
bool timers_desk_flush_all(struct timers_desk *d) { return tm_timers_desk_flush_all(BYTES(d)); }
size_t timers_desk_flush(struct timers_desk *d, size_t client) { return (size_t)tm_timers_desk_flush(BYTES(d), client); }
enum timers_desk_status timers_desk_tick(struct timers_desk *d) { return STATUS tm_timers_desk_tick(BYTES(d)); }
enum timers_desk_status timers_desk_advance(struct timers_desk *d, uint64_t most, uint64_t *passed)
{
	return desk_answered(tm_timers_desk_advance(BYTES(d), most, BYTES(passed)), passed);
}
enum timers_desk_status timers_desk_close(struct timers_desk *d, uint64_t *returned)
{
	return desk_answered(tm_timers_desk_close(BYTES(d), BYTES(returned)), returned);
}
enum timers_desk_status timers_desk_stop_pending(struct timers_desk *d, size_t client, uint64_t *stopped)
{
	return desk_answered(tm_timers_desk_stop_pending(BYTES(d), client, BYTES(stopped)), stopped);
}
enum timers_desk_status timers_desk_reserve(struct timers_desk *d) { return STATUS tm_timers_desk_reserve(BYTES(d)); }
uint64_t timers_desk_now(const struct timers_desk *d) { return tm_timers_desk_now(BYTES(d)); }
size_t timers_desk_len(const struct timers_desk *d) { return (size_t)tm_timers_desk_len(BYTES(d)); }
size_t timers_desk_pending(const struct timers_desk *d, size_t client) { return (size_t)tm_timers_desk_pending(BYTES(d), client); }
uint64_t timers_desk_wakeup(const struct timers_desk *d) { return tm_timers_desk_wakeup(BYTES(d)); }
uint64_t timers_desk_next(const struct timers_desk *d) { return tm_timers_desk_next(BYTES(d)); }
bool timers_desk_line_freed(struct timers_desk *d, size_t client) { return tm_timers_desk_line_freed(BYTES(d), client); }
size_t timers_desk_outbox(const struct timers_desk *d, size_t client) { return (size_t)tm_timers_desk_outbox(BYTES(d), client); }
enum timers_desk_status timers_line_start(struct timers_line *line, uint64_t interval, uint64_t action,
    uint64_t *number)
{
	return desk_answered(tm_timers_line_start(BYTES(line), interval, action, BYTES(number)), number);
}
enum timers_desk_status timers_line_start_at(struct timers_line *line, uint64_t deadline, uint64_t action,
    uint64_t *number)
{
	return desk_answered(tm_timers_line_start_at(BYTES(line), deadline, action, BYTES(number)), number);
}
enum timers_desk_status timers_line_stop(struct timers_line *line, struct timers_handle handle, uint64_t *number)
{
	return desk_answered(tm_timers_line_stop(BYTES(line), handle.place, handle.serial, BYTES(number)), number);
}
enum timers_desk_status timers_line_restart(struct timers_line *line, struct timers_handle handle, uint64_t interval, uint64_t action,
    uint64_t *number)
{
	return desk_answered(tm_timers_line_restart(BYTES(line), handle.place, handle.serial, interval, action, BYTES(number)), number);
}
enum timers_desk_status timers_line_restart_at(struct timers_line *line, struct timers_handle handle, uint64_t deadline, uint64_t action,
    uint64_t *number)
{
	return desk_answered(tm_timers_line_restart_at(BYTES(line), handle.place, handle.serial, deadline, action, BYTES(number)), number);
}
enum timers_desk_status timers_line_finish(struct timers_line *line) { return STATUS tm_timers_line_finish(BYTES(line)); }
bool timers_line_ended(const struct timers_line *line) { return tm_timers_line_ended(BYTES(line)); }
bool timers_line_abandoned(struct timers_line *line) { return tm_timers_line_abandoned(BYTES(line)); }
void timers_line_free(struct timers_line *line) { tm_timers_line_free(BYTES(line)); }

/* by hand */
bool timers_line_receive(struct timers_line *line, struct timers_word *word)
{
	const bool received = tm_timers_line_receive(BYTES(line), BYTES(word));

#if SWAPS
	if (received) {
		word->kind = LITTLE32(word->kind);
		word->reason = LITTLE32(word->reason);
		turn(BYTES(word) + 8, 6);
	}
#endif
	return received;
}
