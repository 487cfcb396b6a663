/* libknot on the files of inputs.py: knot FOLDER [--rounds N] [WORD]. It refuses some files, which then have no line. */

#include <libknot/libknot.h>
#include "common.h"

static unsigned check(const void *arg)
{
	const struct cases *c = arg;
	unsigned refused = 0;
	for (uint32_t i = 0; i < c->count; i++) {
		const struct one *o = &c->all[i];
		int len = knot_dname_wire_check(o->octets + o->place, o->octets + o->len, o->octets);
		refused += len <= 0;
		sink += len;
	}
	return refused;
}

static unsigned unpack(const void *arg)
{
	const struct cases *c = arg;
	unsigned refused = 0;
	for (uint32_t i = 0; i < c->count; i++) {
		const struct one *o = &c->all[i];
		uint8_t name[KNOT_DNAME_MAXLEN];
		int len = knot_dname_wire_check(o->octets + o->place, o->octets + o->len, o->octets);
		refused += len <= 0 || knot_dname_unpack(name, o->octets + o->place, sizeof name, o->octets) <= 0;
		sink += name[0];
	}
	return refused;
}

static unsigned equal(const void *arg)
{
	const struct cases *c = arg;
	for (uint32_t i = 0; i + 1 < c->count; i += 2)
		sink += knot_dname_is_case_equal(c->all[i].octets, c->all[i + 1].octets);
	return 0;
}

/* The canonical order; both names are held in lower case, as libknot wants. */
static unsigned compare(const void *arg)
{
	const struct cases *c = arg;
	for (uint32_t i = 0; i + 1 < c->count; i += 2)
		sink += knot_dname_cmp(c->all[i].octets, c->all[i + 1].octets);
	return 0;
}

static unsigned lower(const void *arg)
{
	const struct cases *c = arg;
	for (uint32_t i = 0; i < c->count; i++) {
		uint8_t name[KNOT_DNAME_MAXLEN];
		knot_dname_copy_lower(name, c->all[i].octets);
		sink += name[1];
	}
	return 0;
}

static unsigned show(const void *arg)
{
	const struct cases *c = arg;
	unsigned refused = 0;
	for (uint32_t i = 0; i < c->count; i++) {
		char text[KNOT_DNAME_TXT_MAXLEN + 1];
		refused += knot_dname_to_str(text, c->all[i].octets, sizeof text) == NULL;
		sink += text[0];
	}
	return refused;
}

static char **texts;

static unsigned from_text(const void *arg)
{
	const struct cases *c = arg;
	unsigned refused = 0;
	for (uint32_t i = 0; i < c->count; i++) {
		uint8_t name[KNOT_DNAME_MAXLEN];
		refused += knot_dname_from_str(name, texts[i], sizeof name) == NULL;
		sink += name[0];
	}
	return refused;
}

/* One A record for each name: libknot compresses names of records alone. */
static unsigned compose(const void *arg)
{
	const struct cases *c = arg;
	unsigned refused = 0;
	static const uint8_t address[4] = { 192, 0, 2, 1 };
	knot_pkt_t *pkt = knot_pkt_new(NULL, 65535, NULL);
	knot_pkt_begin(pkt, KNOT_ANSWER);
	for (uint32_t i = 0; i < c->count; i++) {
		knot_rrset_t set;
		knot_rrset_init(&set, (knot_dname_t *)c->all[i].octets, KNOT_RRTYPE_A, KNOT_CLASS_IN, 3600);
		if (knot_rrset_add_rdata(&set, address, sizeof address, NULL) != 0)
			abort();
		refused += knot_pkt_put(pkt, KNOT_COMPR_HINT_NONE, &set, 0) != 0;
		knot_rdataset_clear(&set.rrs, NULL);
	}
	sink += pkt->size;
	knot_pkt_free(pkt);
	return refused;
}

/* libknot checks all records and their data, and keeps where they stand. */
static unsigned whole(const void *arg)
{
	const struct cases *c = arg;
	unsigned refused = 0;
	for (uint32_t i = 0; i < c->count; i++) {
		knot_pkt_t *pkt = knot_pkt_new((void *)c->all[i].octets, c->all[i].len, NULL);
		refused += knot_pkt_parse(pkt, 0) != 0;
		sink += knot_pkt_section(pkt, KNOT_ANSWER)->count;
		knot_pkt_free(pkt);
	}
	return refused;
}

/* What a message is written of. */
struct message {
	const knot_dname_t *qname;
	knot_rrset_t sets[5];
	unsigned counts[3];
	uint16_t flags;
};

struct messages {
	uint32_t count;
	struct message *all;
	knot_pkt_t *pkt;
};

static knot_rrset_t set_of(const uint8_t *owner, uint16_t type)
{
	knot_rrset_t set;
	knot_rrset_init(&set, (knot_dname_t *)owner, type, KNOT_CLASS_IN, 3600);
	return set;
}

static void add(knot_rrset_t *set, const uint8_t *data, uint16_t len)
{
	if (knot_rrset_add_rdata(set, data, len, NULL) != 0)
		abort();
}

static struct message message_of(unsigned kind, const struct cases *names)
{
	struct message m = { .qname = names->all[0].octets };
	uint8_t address[4] = { 192, 0, 2, 53 };
	switch (kind) {
	case 0:
		if (knot_edns_init(&m.sets[0], 1232, 0, 0, NULL) != 0)
			abort();
		m.counts[2] = 1;
		break;
	case 1:
		m.sets[0] = set_of(m.qname, KNOT_RRTYPE_A);
		for (address[3] = 0; address[3] < 10; address[3]++)
			add(&m.sets[0], address, sizeof address);
		m.counts[0] = 1;
		break;
	default:
		m.sets[0] = set_of(names->all[1].octets, KNOT_RRTYPE_NS);
		for (unsigned i = 2; i < names->count; i++) {
			add(&m.sets[0], names->all[i].octets, names->all[i].len);
			m.sets[i - 1] = set_of(names->all[i].octets, KNOT_RRTYPE_A);
			add(&m.sets[i - 1], address, sizeof address);
		}
		m.counts[1] = 1;
		m.counts[2] = names->count - 2;
	}
	m.flags = kind == 0 ? 0x0100 : 0x8100;
	return m;
}

/* Where libknot's server tells the owner's place: an answer's is the question's name, that of glue a name of data. */
static uint16_t hint_of(const knot_pkt_t *pkt, unsigned section, unsigned index)
{
	if (section == 0)
		return KNOT_COMPR_HINT_QNAME;
	if (section == 2 && pkt->sections[KNOT_AUTHORITY].count > 0)
		return knot_compr_hint(&pkt->rr_info[0], KNOT_COMPR_HINT_RDATA + index);
	return KNOT_COMPR_HINT_NONE;
}

static unsigned put(knot_pkt_t *pkt, const struct message *m, uint16_t id)
{
	unsigned refused = 0;
	const knot_rrset_t *set = m->sets;
	knot_pkt_clear(pkt);
	knot_wire_set_id(pkt->wire, id);
	pkt->wire[2] = m->flags >> 8;
	pkt->wire[3] = m->flags & 255;
	refused += knot_pkt_put_question(pkt, m->qname, KNOT_CLASS_IN, KNOT_RRTYPE_A) != 0;
	for (unsigned section = 0; section < 3; section++) {
		if (m->counts[section] == 0)
			continue;
		knot_pkt_begin(pkt, KNOT_ANSWER + section);
		for (unsigned i = 0; i < m->counts[section]; i++)
			refused += knot_pkt_put(pkt, hint_of(pkt, section, i), set++, 0) != 0;
	}
	return refused;
}

static unsigned write_all(const void *arg)
{
	const struct messages *ms = arg;
	unsigned refused = 0;
	for (uint32_t i = 0; i < ms->count; i++)
		for (uint16_t id = 0; id < PER_CALL; id++) {
			refused += put(ms->pkt, &ms->all[i], id);
			sink += ms->pkt->size;
		}
	return refused;
}

static void measure_writing(const char *folder, unsigned kind)
{
	struct cases c = read_cases(folder, WRITES[kind]);
	struct messages ms = { c.count, calloc(c.count, sizeof(struct message)), knot_pkt_new(NULL, 512, NULL) };
	for (uint32_t i = 0; i < c.count; i++) {
		struct cases *names = malloc(sizeof *names);
		*names = split_names(c.all[i].octets, NAMES[kind]);
		ms.all[i] = message_of(kind, names);
	}
	measure("libknot", WRITTEN[kind], WRITES[kind], c.count * PER_CALL, write_all, &ms);
}

int main(int argc, char **argv)
{
	const char *folder = folder_of(argc, argv);
	for (unsigned i = 0; i < ALL(MESSAGES); i++) {
		struct cases c = read_cases(folder, MESSAGES[i]);
		measure("libknot", "parse", MESSAGES[i], c.count, check, &c);
		measure("libknot", "flatten", MESSAGES[i], c.count, unpack, &c);
	}
	for (unsigned i = 0; i < ALL(FLAT); i++) {
		struct cases c = read_cases(folder, FLAT[i]);
		measure("libknot", "check_eq", FLAT[i], c.count / 2, equal, &c);
		measure("libknot", "check_canonical", FLAT[i], c.count, lower, &c);
		measure("libknot", "check_show_fixed", FLAT[i], c.count, show, &c);
		for (uint32_t j = 0; j < c.count; j++)
			knot_dname_to_lower((knot_dname_t *)c.all[j].octets);
		measure("libknot", "check_cmp", FLAT[i], c.count / 2, compare, &c);
	}
	for (unsigned i = 0; i < ALL(TEXTS); i++) {
		struct cases c = read_cases(folder, TEXTS[i]);
		texts = calloc(c.count, sizeof *texts);
		for (uint32_t j = 0; j < c.count; j++)
			texts[j] = strndup((const char *)c.all[j].octets, c.all[j].len);
		measure("libknot", "from_str_array", TEXTS[i], c.count, from_text, &c);
	}
	for (unsigned i = 0; i < ALL(WHOLE); i++) {
		struct cases c = read_cases(folder, WHOLE[i]);
		measure("libknot", "record_data", WHOLE[i], c.count, whole, &c);
	}
	for (unsigned i = 0; i < ALL(STREAMS); i++)
		for (unsigned j = 0; j < ALL(COUNTS); j++) {
			char file[64];
			snprintf(file, sizeof file, "%s-%u.stream", STREAMS[i], COUNTS[j]);
			struct cases c = split_stream(folder, file);
			measure("libknot", "compress", file, c.count, compose, &c);
		}
	for (unsigned i = 0; i < ALL(WRITES); i++)
		measure_writing(folder, i);
	return 0;
}
