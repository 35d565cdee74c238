/*
 * Makes every call on every datagram of a recording: `every check`, `every show`, `every json` or
 * `every compare`, with `big` behind it where numbers have their highest byte first. The first
 * three print what `rtnl` prints; the last holds the calls against each other, and says how many
 * datagrams and heads there were.
 */
#include "guarded.h"
#include "walk.h"

#define LARGEST (1 << 20)
#define MARGIN  8

static const char *const reasons[] = { "",           "cut",      "bad length",
	                                   "short body", "too long", "too deep" };

/* The ends of guarded memory for a datagram, for events and for a text. */
static uint8_t *bytes_end, *events_end, *text_end;
static size_t heads;

static void print_check(const struct datagram *one, const struct rtnlc_options *limits)
{
	struct rtnlc_checked checked = rtnlc_check(one->bytes, one->len, limits);
	printf("datagram %lu ", (unsigned long)one->number);
	if (checked.code == RTNLC_OK)
		puts(checked.canonical ? "canonical" : "accepted");
	else if (checked.code == RTNLC_TOO_LARGE)
		puts("refused too large");
	else if (checked.code <= RTNLC_TOO_DEEP)
		printf("refused %s at %lu\n", reasons[checked.code], (unsigned long)checked.place);
	else
		fail("a code of rtnlc_check", one->number);
}

/* rtnlc_show or rtnlc_show_json. */
typedef struct rtnlc_shown shows(size_t, const uint8_t *, size_t, const struct rtnlc_options *,
                                 char *, size_t);

/* A text into so much room, at the end of which MARGIN bytes are painted too: as much as fits is
 * put, and no more is touched. */
static void compare_show(shows *show, const struct datagram *one,
                         const struct rtnlc_options *limits, const char *text, size_t len,
                         size_t room)
{
	char *out = (char *)text_end - room - MARGIN;
	size_t put = room < len ? room : len;
	struct rtnlc_shown shown;
	memset(out, PAINT, room + MARGIN);
	shown = show(one->number, one->bytes, one->len, limits, out, room);
	if (shown.code || shown.len != len)
		fail("the length of a text by its room", one->number);
	if (memcmp(out, text, put) || !is_painted(out + put, room + MARGIN - put))
		fail("a text by its room", one->number);
}

static void print_show(shows *show, const struct datagram *one,
                       const struct rtnlc_options *limits)
{
	struct rtnlc_shown none = show(one->number, one->bytes, one->len, limits, NULL, 0), shown;
	char *text = (char *)text_end - none.len;
	char *kept = (char *)taken(none.len);
	if (none.code || none.len > (size_t)64 * LARGEST)
		fail("a text's length", one->number);
	shown = show(one->number, one->bytes, one->len, limits, text, none.len);
	if (shown.code || shown.len != none.len)
		fail("the length of a whole text", one->number);
	memcpy(kept, text, none.len);
	compare_show(show, one, limits, kept, none.len, 0);
	compare_show(show, one, limits, kept, none.len, none.len / 2);
	compare_show(show, one, limits, kept, none.len, none.len + MARGIN);
	fwrite(kept, 1, none.len, stdout);
	free(kept);
}

static bool is_event(const struct rtnlc_event *found, const struct rtnlc_event *wanted)
{
	return found->place == wanted->place && found->len == wanted->len &&
	       found->number == wanted->number && found->level == wanted->level &&
	       found->sort == wanted->sort && found->nested == wanted->nested &&
	       found->net == wanted->net;
}

/* A tape with so much room puts the events of the walk, as far as they fit, and touches nothing
 * behind them. */
static void compare_tape(const struct walk *w, const struct rtnlc_options *limits, size_t room)
{
	struct rtnlc_event *out = (struct rtnlc_event *)events_end - room;
	struct rtnlc_taped taped;
	size_t at, put = room < w->count ? room : w->count;
	memset(out, PAINT, room * sizeof *out);
	taped = rtnlc_tape(w->bytes, w->len, limits, room ? out : NULL, room);
	if (taped.code != w->broken.code || taped.place != w->broken.place || taped.visits != w->visits)
		fail("the end of a tape", w->number);
	if (taped.count != w->count)
		fail("the count of a tape", w->number);
	for (at = 0; at < put; at++)
		if (!is_event(&out[at], &w->events[at]))
			fail("an event of a tape", w->number);
	if (!is_painted(out + put, (room - put) * sizeof *out))
		fail("what stands behind the events of a tape", w->number);
}

static void compare_broken(const struct walk *w, const struct rtnlc_options *limits)
{
	struct rtnlc_broken_head found = rtnlc_broken(w->bytes, w->len, limits);
	const struct rtnlc_broken_head *wanted = &w->broken;
	if (found.place != wanted->place || found.code != wanted->code)
		fail("the place of a broken head", w->number);
	if (found.len != wanted->len || found.number != wanted->number ||
	    found.whole != wanted->whole)
		fail("what a broken head says", w->number);
	if (found.left != wanted->left || found.level != wanted->level || found.sort != wanted->sort)
		fail("where a broken head lies", w->number);
}

/* All calls under these limits; `given` is what they are handed: a pointer to the limits, or
 * null. */
static void compare_under(struct datagram at_end, struct rtnlc_options limits,
                          const struct rtnlc_options *given)
{
	struct walk w = walked(at_end.bytes, at_end.len, at_end.number, limits);
	struct rtnlc_scanned scanned = rtnlc_scan(at_end.bytes, at_end.len, given);
	struct rtnlc_checked checked = rtnlc_check(at_end.bytes, at_end.len, given);
	if (scanned.code != w.broken.code || scanned.place != w.broken.place || scanned.visits != w.visits)
		fail("a scan and the walk", at_end.number);
	if (scanned.visits > (limits.depth + 1) * (uint64_t)at_end.len)
		fail("the visits of a scan", at_end.number);
	if (w.count > at_end.len / 4)
		fail("more heads than a quarter of the bytes", at_end.number);
	if (checked.code != w.broken.code || checked.place != w.broken.place ||
	    (checked.canonical && w.broken.code))
		fail("a check and the walk", at_end.number);
	compare_broken(&w, given);
	compare_tape(&w, given, 0);
	compare_tape(&w, given, w.count / 2);
	compare_tape(&w, given, w.count);
	compare_tape(&w, given, w.count + MARGIN);
	heads += w.count;
	free(w.events);
}

/* Where the limits are out of their range, each call says so and touches nothing. */
static void compare_bad(struct datagram at_end, uint32_t datagram, uint8_t depth)
{
	struct rtnlc_options bad = { 0, datagram, 0, depth, false, { 0 } };
	struct rtnlc_event *out = (struct rtnlc_event *)events_end - MARGIN;
	char *text = (char *)text_end - MARGIN;
	struct rtnlc_scanned scanned = rtnlc_scan(at_end.bytes, at_end.len, &bad);
	struct rtnlc_checked checked = rtnlc_check(at_end.bytes, at_end.len, &bad);
	struct rtnlc_broken_head broken = rtnlc_broken(at_end.bytes, at_end.len, &bad);
	struct rtnlc_taped taped;
	struct rtnlc_shown shown, json;
	memset(out, PAINT, MARGIN * sizeof *out);
	memset(text, PAINT, MARGIN);
	taped = rtnlc_tape(at_end.bytes, at_end.len, &bad, out, MARGIN);
	shown = rtnlc_show(1, at_end.bytes, at_end.len, &bad, text, MARGIN);
	json = rtnlc_show_json(1, at_end.bytes, at_end.len, &bad, text, MARGIN);
	if (scanned.code != RTNLC_BAD_LIMIT || scanned.place || scanned.visits)
		fail("a scan under bad limits", at_end.number);
	if (checked.code != RTNLC_BAD_LIMIT || checked.place || checked.canonical)
		fail("a check under bad limits", at_end.number);
	if (taped.code != RTNLC_BAD_LIMIT || taped.place || taped.visits || taped.count)
		fail("a tape under bad limits", at_end.number);
	if (broken.code != RTNLC_BAD_LIMIT || broken.place || broken.left || broken.whole)
		fail("a broken head under bad limits", at_end.number);
	if (shown.code != RTNLC_BAD_LIMIT || shown.len || json.code != RTNLC_BAD_LIMIT || json.len)
		fail("a text under bad limits", at_end.number);
	if (!is_painted(out, MARGIN * sizeof *out) || !is_painted(text, MARGIN))
		fail("what bad limits touch", at_end.number);
}

static void compare(const struct datagram *one, bool big)
{
	static const uint8_t depths[] = { 0, 1, 2, 32 };
	struct rtnlc_options limits = { RTNLC_STANDARD_TOTAL, RTNLC_STANDARD_DATAGRAM,
		                            RTNLC_STANDARD_ENTRIES, RTNLC_STANDARD_DEPTH, false, { 0 } };
	struct datagram at_end = *one;
	size_t at;
	at_end.bytes = bytes_end - one->len;
	memcpy(at_end.bytes, one->bytes, one->len);
	compare_under(at_end, limits, NULL);
	limits.big = big;
	compare_under(at_end, limits, &limits);
	for (at = 0; at < sizeof depths; at++) {
		limits.depth = depths[at];
		compare_under(at_end, limits, &limits);
	}
	limits.datagram = one->len > 20 ? (uint32_t)(one->len - 4) / 4 * 4 : 16;
	compare_under(at_end, limits, &limits);
	limits.datagram = LARGEST;
	compare_under(at_end, limits, &limits);
	compare_bad(at_end, 12, 8);
	compare_bad(at_end, LARGEST + 4, 8);
	compare_bad(at_end, 65538, 8);
	compare_bad(at_end, 65536, 33);
}

int main(int count, char **words)
{
	bool big = count > 2 && strcmp(words[2], "big") == 0;
	struct rtnlc_options limits = { RTNLC_STANDARD_TOTAL, RTNLC_STANDARD_DATAGRAM,
		                            RTNLC_STANDARD_ENTRIES, RTNLC_STANDARD_DEPTH, big, { 0 } };
	struct datagram one = { NULL, 0, 0 };
	if (count < 2)
		return 2;
	bytes_end = guarded_end(LARGEST);
	events_end = guarded_end(LARGEST * 4 + PAGE);
	text_end = guarded_end((size_t)64 * LARGEST + PAGE);
	while (next_datagram(stdin, &one)) {
		if (strcmp(words[1], "check") == 0)
			print_check(&one, big ? &limits : NULL);
		else if (strcmp(words[1], "show") == 0)
			print_show(rtnlc_show, &one, big ? &limits : NULL);
		else if (strcmp(words[1], "json") == 0)
			print_show(rtnlc_show_json, &one, big ? &limits : NULL);
		else
			compare(&one, big);
		free(one.bytes);
	}
	if (strcmp(words[1], "compare") == 0)
		printf("%lu datagrams, %lu heads\n", (unsigned long)one.number, (unsigned long)heads);
	return fflush(stdout) ? 3 : 0;
}
