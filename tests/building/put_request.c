/*
 * Puts the requests that standard input asks for, one on each line, by the five calls, and prints
 * each as hexadecimal digits, or by which name it is refused:
 *
 *   FAMILY OPERATION FIELD=VALUE..
 *
 * A field has its name in include/rtnlc.h, and so have the five families, as `link`. Bytes are
 * hexadecimal digits; metrics are NUMBER:VALUE,.. and next hops INDEX:FLAGS:HOPS:GATEWAY,.. with
 * `-` for no gateway. All else is a number.
 * usage: put_request [big]
 */
#include "requests.h"

#define ROOM 65536
#define MOST 16

static uint8_t out[ROOM], pool[ROOM];
static size_t pooled;
static struct rtnlc_metric metrics[MOST];
static struct rtnlc_next_hop hops[MOST];

/* Bytes that stay until the next line. */
static struct rtnlc_bytes bytes_of(const char *digits)
{
	struct rtnlc_bytes it;
	unsigned byte;
	it.at = pool + pooled;
	it.len = strcmp(digits, "-") ? strlen(digits) / 2 : 0;
	must(pooled + it.len <= sizeof pool, "so many bytes");
	for (; *digits && *digits != '-'; digits += 2) {
		must(sscanf(digits, "%2x", &byte) == 1, "hexadecimal digits");
		pool[pooled++] = (uint8_t)byte;
	}
	return it;
}

static size_t read_metrics(const char *value)
{
	size_t count;
	for (count = 0; value; count++) {
		must(count < MOST &&
		         sscanf(value, "%hu:%u", &metrics[count].number, &metrics[count].value) == 2,
		     "a metric");
		value = strchr(value, ',');
		value = value ? value + 1 : NULL;
	}
	return count;
}

static size_t read_hops(const char *value)
{
	size_t count;
	for (count = 0; value; count++) {
		struct rtnlc_next_hop *hop = hops + count;
		struct rtnlc_bytes gateway;
		char digits[33];
		must(count < MOST && sscanf(value, "%d:%hhu:%hhu:%32[-0-9a-f]", &hop->index, &hop->flags,
		                            &hop->hops, digits) == 4,
		     "a next hop");
		gateway = bytes_of(digits);
		hop->gateway_len = (uint8_t)gateway.len;
		memcpy(hop->gateway, gateway.at, gateway.len);
		value = strchr(value, ',');
		value = value ? value + 1 : NULL;
	}
	return count;
}

static void set_field(union fields *it, const struct field *field, const char *value)
{
	struct rtnlc_bytes bytes;
	if (field->type == IS_BYTES) {
		bytes = bytes_of(value);
		memcpy(field_at(it, field), &bytes, sizeof bytes);
	} else if (field->type == IS_METRICS) {
		it->route.metrics = metrics;
		it->route.metric_count = read_metrics(value);
	} else if (field->type == IS_HOPS) {
		it->route.hops = hops;
		it->route.hop_count = read_hops(value);
	} else
		set_number(it, field, (uint32_t)strtoul(value, NULL, 0));
}

static enum asked family_of(const char *name)
{
	int at;
	for (at = 0; at < FAMILIES && strcmp(name, families[at].name); at++)
		;
	must(at < FAMILIES, "a family");
	return (enum asked)at;
}

/* A word FIELD=VALUE. */
static void read_field(enum asked family, union fields *it, char *word)
{
	const struct family *of = families + family;
	char *value = strchr(word, '=');
	size_t at;
	must(value != NULL, "a field and its value");
	*value = 0;
	for (at = 0; at < of->count && strcmp(word, of->fields[at].name); at++)
		;
	must(at < of->count, "a field");
	set_field(it, of->fields + at, value + 1);
}

static void answer(char *line, bool big)
{
	const enum asked family = family_of(strtok(line, " \n"));
	const char *operation = strtok(NULL, " \n");
	union fields it;
	struct rtnlc_put put;
	char *word;
	size_t at;
	memset(&it, 0, sizeof it);
	pooled = 0;
	while ((word = strtok(NULL, " \n")))
		read_field(family, &it, word);
	must(operation != NULL, "an operation");
	put = put_request(family, &it, (uint8_t)atoi(operation), 0, big, out, sizeof out);
	if (put.code)
		printf("refused %s", rtnlc_code_name(put.code));
	for (at = 0; at < put.len; at++)
		printf("%02x", out[at]);
	putchar('\n');
}

int main(int argc, char **argv)
{
	static char line[4 * ROOM];
	const bool big = argc > 1 && !strcmp(argv[1], "big");
	while (fgets(line, sizeof line, stdin))
		answer(line, big);
	return 0;
}
