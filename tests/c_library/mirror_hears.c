/*
 * Mirrors over recordings, whole or mutated, whose messages are told as notifications:
 * mirror_hears ORDER <RECORDING. One mirror is fed each datagram; another one its messages, one by
 * one, over a model that keeps each entry by what the changes say. Both refuse what a scan refuses,
 * where it does; both end with the same entries, which are those of the model.
 */
#include "asked.h"
#include "guarded.h"

#define LARGEST RTNLC_STANDARD_DATAGRAM
#define MOST    512
#define ENTRIES 64

/* An entry of the model: its bytes. */
struct kept {
	uint8_t *bytes;
	size_t len;
};

static struct rtnlc_options limits = { RTNLC_STANDARD_TOTAL, LARGEST, ENTRIES,
	                                   RTNLC_STANDARD_DEPTH, false, { 0 } };
static struct rtnlc_mirror whole, single;
static struct kept model[5][ENTRIES];
static uint32_t counts[5];
static struct rtnlc_change changes[LARGEST / 16];
static uint8_t before[MOST * 1024], entry[2 * LARGEST], told[LARGEST];
static unsigned long effects[5];

/* The row of a message type in the model: 5 where it is of none. */
static size_t row_of(uint16_t kind)
{
	return rtnlc_family_of(kind).head_size && kind <= 34 ? (size_t)(kind - 16) / 4 : 5;
}

static void set_u16(uint8_t *to, uint16_t number)
{
	to[limits.big ? 1 : 0] = (uint8_t)number;
	to[limits.big ? 0 : 1] = (uint8_t)(number >> 8);
}

/* Makes notifications of all messages, of the type DEL where that is asked for and they are of NEW.
 * Answers how many there are. */
static size_t tell(uint8_t *bytes, size_t len, bool is_gone)
{
	struct rtnlc_message it = rtnlc_message_at(bytes, len, 0, limits.big);
	size_t count = 0;
	while (it.code == RTNLC_OK) {
		const bool is_new = it.kind % 4 == 0 && row_of(it.kind) < 5;
		set_u16(bytes + it.place + 6, (uint16_t)(it.flags & ~2));
		set_u16(bytes + it.place + 4, (uint16_t)(it.kind + (is_gone && is_new)));
		count++;
		it = rtnlc_message_at(bytes, len, it.next, limits.big);
	}
	return count;
}

/* The entry of the single mirror at this place, for the model. */
static struct kept entry_at(uint16_t kind, uint32_t index, size_t number)
{
	const struct rtnlc_put put = rtnlc_mirror_entry(&single, kind, index, entry, sizeof entry);
	struct kept it = { NULL, put.len };
	must(put.code == RTNLC_OK, "an entry", number);
	it.bytes = (uint8_t *)taken(put.len);
	memcpy(it.bytes, entry, put.len);
	return it;
}

/* What was there before is what the model has. */
static void hold_before(const struct rtnlc_change *it, size_t row, size_t number)
{
	const struct kept *was = &model[row][it->index];
	must(it->index < counts[row], "the index of what was there", number);
	must(it->before_len == was->len && !memcmp(before + it->before, was->bytes, was->len),
	     "what was there", number);
}

/* Makes a change in the model. */
static void model_change(const struct rtnlc_change *it, size_t number)
{
	const size_t row = row_of(it->kind);
	effects[it->effect]++;
	must(it->code == RTNLC_OK && it->effect < RTNLC_WAITS, "a change", number);
	must(it->effect == RTNLC_CHANGED || it->effect == RTNLC_REMOVED || !it->before_len,
	     "nothing before", number);
	if (it->effect == RTNLC_NOTHING)
		return;
	must(row < 5, "the kind of a change", number);
	if (it->effect == RTNLC_ADDED)
		must(it->index == counts[row]++, "the index of what is new", number);
	else
		hold_before(it, row, number);
	if (it->effect == RTNLC_REMOVED) {
		free(model[row][it->index].bytes);
		model[row][it->index] = model[row][--counts[row]];
		return;
	}
	if (it->effect == RTNLC_CHANGED)
		free(model[row][it->index].bytes);
	model[row][it->index] = entry_at(it->kind, it->index, number);
}

/* Feeds each message by itself, and makes its change in the model; it is the change that the whole
 * datagram had of it. */
static void feed_each(const struct rtnlc_change *all, const uint8_t *bytes, size_t len,
                      size_t number)
{
	static uint8_t own[LARGEST];
	struct rtnlc_message it = rtnlc_message_at(bytes, len, 0, limits.big);
	for (; it.code == RTNLC_OK; all++) {
		static struct rtnlc_change one[LARGEST / 16];
		const size_t size = 16 + it.len;
		struct rtnlc_heard heard;
		memcpy(own, bytes + it.place, size);
		heard = rtnlc_mirror_feed(&single, own, size, one, LARGEST / 16, before, sizeof before);
		must(!heard.code && heard.changes == 1, "a single message", number);
		model_change(one, number);
		must(one->effect == all->effect && one->index == all->index && one->kind == all->kind &&
		         one->before_len == all->before_len && one->code == all->code,
		     "what it does in its datagram", number);
		must(one->kind == (row_of(it.kind) < 5 ? 16 + 4 * row_of(it.kind) : 0), "its kind", number);
		it = rtnlc_message_at(bytes, len, it.next, limits.big);
	}
}

/* Feeds a datagram to the one mirror, and its messages to the other. */
static void hear(const uint8_t *bytes, size_t len, size_t messages, size_t number)
{
	const struct rtnlc_scanned scanned = rtnlc_scan(bytes, len, &limits);
	static struct rtnlc_change all[LARGEST / 16];
	struct rtnlc_heard heard;
	memset(changes, PAINT, sizeof changes);
	heard = rtnlc_mirror_feed(&whole, bytes, len, changes, LARGEST / 16, before, sizeof before);
	must(heard.code == scanned.code && heard.place == scanned.place, "a refusal", number);
	must(heard.visits == scanned.visits, "the visits", number);
	must(heard.changes == (heard.code ? 0 : messages), "the count of changes", number);
	must(is_painted(changes + heard.changes, (LARGEST / 16 - heard.changes) * sizeof *changes),
	     "what is behind them", number);
	memcpy(all, changes, sizeof all);
	if (!heard.code)
		feed_each(all, bytes, len, number);
}

/* Both mirrors have the entries of the model, each under its key. */
static void hold_tables(size_t number)
{
	size_t row;
	uint32_t at;
	for (row = 0; row < 5; row++) {
		const uint16_t kind = (uint16_t)(16 + 4 * row);
		must(rtnlc_mirror_table(&whole, kind).count == counts[row] &&
		         rtnlc_mirror_table(&single, kind).count == counts[row],
		     "how many there are", number);
		for (at = 0; at < counts[row]; at++) {
			struct rtnlc_put put = rtnlc_mirror_entry(&whole, kind, at, entry, sizeof entry);
			must(put.code == RTNLC_OK && put.len == model[row][at].len &&
			         !memcmp(entry, model[row][at].bytes, put.len),
			     "an entry of both", number);
			put = rtnlc_mirror_key(&single, kind, at, entry, sizeof entry);
			must(put.code == RTNLC_OK &&
			         rtnlc_mirror_find(&whole, kind, entry, put.len).index == at,
			     "the key of an entry", number);
		}
	}
}

int main(int count, char **words)
{
	struct datagram one = { NULL, 0, 0 };
	uint8_t *end = guarded_end(LARGEST);
	size_t row;
	limits.big = count > 1 && !strcmp(words[1], "big");
	must(!rtnlc_mirror_new(&whole, &limits, 1) && !rtnlc_mirror_new(&single, &limits, 1), "new", 0);
	while (next_datagram(stdin, &one)) {
		const bool is_right = one.len <= LARGEST;
		const size_t len = is_right ? one.len : 0;
		size_t messages, turn;
		for (turn = 0; turn < 3; turn++) {
			memcpy(told, one.bytes, len);
			messages = tell(told, len, turn == 2 && one.number % 3 > 0);
			memcpy(end - len, told, len);
			hear(end - len, len, messages, one.number);
		}
		if (one.number % 16 == 0)
			hold_tables(one.number);
		free(one.bytes);
	}
	hold_tables(one.number);
	for (row = 0; row < 5; row++)
		while (counts[row] > 0)
			free(model[row][--counts[row]].bytes);
	rtnlc_mirror_free(&whole);
	rtnlc_mirror_free(&single);
	must(effects[1] && effects[2] && effects[3], "each effect", one.number);
	printf("%lu datagrams, %lu added, %lu changed, %lu removed\n", (unsigned long)one.number,
	       effects[RTNLC_ADDED], effects[RTNLC_CHANGED], effects[RTNLC_REMOVED]);
	return fflush(stdout) ? 3 : 0;
}
