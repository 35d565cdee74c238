/* Reads a dump of routes by libmnl's own loop, mnl_cb_run, and says what came of it.
 * usage: dumps_libmnl read|stream|routes FILE, as dump.h has it. By `read` nothing is made of
 * it; by `stream` each message is walked over by callbacks; by `routes` these check types and
 * lengths and keep the attributes for a look, as those of libmnl's own examples do. */
#include "dump.h"
#include "libmnl_walk.h"

/* What of a route is kept until the next: its first attribute of each number. */
static const struct nlattr *attributes[RTA_MAX + 1], *metrics[RTAX_MAX + 1];
static unsigned long routes;

static uint32_t number(const struct nlattr *attr)
{
	return attr ? mnl_attr_get_u32(attr) : 0;
}

static int keep_metric(const struct nlattr *attr, void *data)
{
	int type = mnl_attr_get_type(attr);

	(void)data;
	if (mnl_attr_type_valid(attr, RTAX_MAX) < 0)
		return MNL_CB_OK;
	if (mnl_attr_validate(attr, MNL_TYPE_U32) < 0)
		return MNL_CB_ERROR;
	if (!metrics[type])
		metrics[type] = attr;
	return MNL_CB_OK;
}

static int keep_attribute(const struct nlattr *attr, void *data)
{
	int type = mnl_attr_get_type(attr);

	(void)data;
	if (mnl_attr_type_valid(attr, RTA_MAX) < 0)
		return MNL_CB_OK;
	switch (type) {
	case RTA_DST:
	case RTA_SRC:
	case RTA_OIF:
	case RTA_GATEWAY:
	case RTA_PRIORITY:
	case RTA_PREFSRC:
	case RTA_FLOW:
	case RTA_TABLE:
		if (mnl_attr_validate(attr, MNL_TYPE_U32) < 0)
			return MNL_CB_ERROR;
		break;
	case RTA_METRICS:
		if (mnl_attr_parse_nested(attr, keep_metric, NULL) < 0)
			return MNL_CB_ERROR;
		break;
	case RTA_MULTIPATH:
		next_hops(attr);
	}
	if (!attributes[type])
		attributes[type] = attr;
	return MNL_CB_OK;
}

static void look(void)
{
	count += number(attributes[RTA_DST]) + number(attributes[RTA_OIF]) + number(metrics[RTAX_MTU]);
	memset(attributes, 0, sizeof(attributes));
	memset(metrics, 0, sizeof(metrics));
}

/* A message with the sequence number and the port id, and with no NLM_F_DUMP_INTR: mnl_cb_run
 * has looked. */
static int handed(const struct nlmsghdr *head, void *looks)
{
	if (head->nlmsg_type != RTM_NEWROUTE)
		return MNL_CB_OK;
	if (mnl_nlmsg_get_payload_len(head) < sizeof(struct rtmsg))
		return MNL_CB_ERROR;
	routes++;
	if (!*(bool *)looks) {
		message(head);
		return MNL_CB_OK;
	}
	if (mnl_attr_parse(head, sizeof(struct rtmsg), keep_attribute, NULL) < 0)
		return MNL_CB_ERROR;
	look();
	return MNL_CB_OK;
}

int main(int argc, char **argv)
{
	FILE *file = opened(argc > 2 ? argv[2] : NULL);
	bool looks = !strcmp(argv[1], "routes");
	int found = MNL_CB_OK;
	size_t len;

	if (!strcmp(argv[1], "read"))
		return printf("%lu bytes\n", read_all(file)) < 0 ? FAILED : 0;
	by_callbacks = true;
	while (found == MNL_CB_OK && (len = next(file)))
		found = mnl_cb_run(datagram, len, SEQ, PORT, handed, &looks);
	printf("%lu routes, %lu\n", routes, count);
	return found == MNL_CB_STOP ? 0 : FAILED;
}
