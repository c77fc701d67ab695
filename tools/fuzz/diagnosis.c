/* What is wrong with a line, byte by byte: the first byte with which it can no longer become a line of the script or stream. */
#include "model.h"

#include <stdbool.h>
#include <string.h>

const struct layout FORMS[] = {FORMS_OF_A_LINE};

/* How many of them are read: a script has those of a stream but for the last. */
static size_t count_of_forms(enum grammar grammar)
{
	return grammar == SCRIPT ? FORMS_OF_A_SCRIPT : sizeof FORMS / sizeof *FORMS;
}

/* In the order of the page's table. */
enum reason {
	NO_LINE_END, EMPTY_LINE, CARRIAGE_RETURN, BYTE_ORDER_MARK, TAB, SPACE_TOO_MANY, UNKNOWN_WORD, MISSING_FIELD,
	TOO_MANY_FIELDS, NOT_A_NUMBER, LEADING_ZERO, NO_NUMBER_OF_A_TIMER, NO_NUMBER_OF_TICKS, NONE
};
static const char *const TEXTS[NONE + 1] = {REASONS_OF_A_LINE};

static struct wrong wrong(size_t at, const char *field, enum reason reason)
{
	struct wrong result = {at + 1, field, TEXTS[reason]};
	return result;
}

/* A byte that is in no line, or the end of the bytes; NONE for others. */
static enum reason in_no_line(const char *line, size_t len, size_t at)
{
	if (at == len)
		return NO_LINE_END;
	return line[at] == '\r' ? CARRIAGE_RETURN : line[at] == '\t' ? TAB : NONE;
}

const struct layout *form_of(enum grammar grammar, const char *line, size_t len)
{
	size_t letters = 0;
	while (letters < len && ((line[letters] >= 'a' && line[letters] <= 'z') || line[letters] == '-'))
		letters++;
	for (size_t i = 0; i < count_of_forms(grammar); i++)
		if (strlen(FORMS[i].word) == letters && !memcmp(line, FORMS[i].word, letters))
			return &FORMS[i];
	return NULL;
}

/* The line begins with the first bytes of no more than these words. */
static struct wrong in_word(enum grammar grammar, const char *line, size_t len)
{
	size_t at = 0;
	for (size_t i = 0; i < count_of_forms(grammar); i++) {
		size_t same = 0;
		while (same < len && FORMS[i].word[same] && line[same] == FORMS[i].word[same])
			same++;
		at = same > at ? same : at;
	}
	enum reason reason = in_no_line(line, len, at);
	if (reason == NONE && at == 0)
		reason = line[0] == ' ' ? SPACE_TOO_MANY : line[0] == '\n' ? EMPTY_LINE : NONE;
	if (reason == NONE && at == 0 && len >= 3 && !memcmp(line, "\xEF\xBB\xBF", 3))
		reason = BYTE_ORDER_MARK;
	return wrong(at, NULL, reason != NONE ? reason : UNKNOWN_WORD);
}

/* A space after the last field, or the word `close`. */
static struct wrong after_all(const char *line, size_t len, size_t at)
{
	bool ends = at + 1 == len || line[at + 1] == '\n' || line[at + 1] == '\r';
	return wrong(at, NULL, ends ? SPACE_TOO_MANY : TOO_MANY_FIELDS);
}

/* Reads a field from `*at` on. Returns whether the byte at which it stops, then at `*at`, is no part of it. */
static bool reads_field(const char *line, size_t len, size_t *at, const char *field, struct wrong *result)
{
	uint64_t value = 0, most = strcmp(field, "count") ? LAST : MAX_TICKS;
	size_t first = *at;
	for (; *at < len && line[*at] >= '0' && line[*at] <= '9'; ++*at) {
		uint64_t digit = (uint64_t)(line[*at] - '0');
		enum reason out = most == LAST ? NO_NUMBER_OF_A_TIMER : NO_NUMBER_OF_TICKS;
		if (*at == first + 1 && value == 0)
			*result = wrong(*at, field, LEADING_ZERO);
		else if (value * 10 + digit > most || (most != LAST && value * 10 + digit == 0))
			*result = wrong(*at, field, out);
		else {
			value = value * 10 + digit;
			continue;
		}
		return false;
	}
	if (*at > first)
		return true;
	enum reason reason = in_no_line(line, len, *at);
	if (reason != NONE)
		*result = wrong(*at, NULL, reason);
	else if (line[*at] == ' ')
		*result = wrong(*at, NULL, SPACE_TOO_MANY);
	else
		*result = wrong(*at, field, line[*at] == '\n' ? MISSING_FIELD : NOT_A_NUMBER);
	return false;
}

struct wrong diagnose(enum grammar grammar, const char *line, size_t len)
{
	const struct layout *form = form_of(grammar, line, len);
	if (!form)
		return in_word(grammar, line, len);
	size_t at = strlen(form->word);
	const char *before = NULL;
	for (int i = 0;; i++) {
		const char *field = form->fields[i];
		if (!field && at + 1 == len && line[at] == '\n')
			return wrong(0, NULL, NONE);
		enum reason reason = in_no_line(line, len, at);
		if (reason != NONE)
			return wrong(at, NULL, reason);
		if (!field && line[at] == ' ')
			return after_all(line, len, at);
		if (field && line[at] == '\n')
			return wrong(at, field, MISSING_FIELD);
		if (line[at] != ' ')
			return wrong(at, before, before ? NOT_A_NUMBER : UNKNOWN_WORD);
		struct wrong result;
		at++;
		if (!reads_field(line, len, &at, field, &result))
			return result;
		before = field;
	}
}
