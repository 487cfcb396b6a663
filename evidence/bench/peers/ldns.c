/* ldns on the files of inputs.py: ldns FOLDER [--rounds N] [WORD]. It refuses some files, which then have no line. */

#include <ldns/ldns.h>
#include "common.h"

static unsigned parse(const void *arg)
{
	const struct cases *c = arg;
	unsigned refused = 0;
	for (uint32_t i = 0; i < c->count; i++) {
		ldns_rdf *name = NULL;
		size_t pos = c->all[i].place;
		if (ldns_wire2dname(&name, c->all[i].octets, c->all[i].len, &pos) != LDNS_STATUS_OK)
			refused++;
		else
			sink += pos + ldns_rdf_size(name);
		ldns_rdf_deep_free(name);
	}
	return refused;
}

struct pairs {
	uint32_t count;
	ldns_rdf **all;
};

static unsigned compare(const void *arg)
{
	const struct pairs *p = arg;
	for (uint32_t i = 0; i + 1 < p->count; i += 2)
		sink += ldns_dname_compare(p->all[i], p->all[i + 1]);
	return 0;
}

static unsigned show(const void *arg)
{
	const struct pairs *p = arg;
	unsigned refused = 0;
	ldns_buffer *buffer = ldns_buffer_new(4096);
	for (uint32_t i = 0; i < p->count; i++) {
		ldns_buffer_clear(buffer);
		refused += ldns_rdf2buffer_str_dname(buffer, p->all[i]) != LDNS_STATUS_OK;
		sink += ldns_buffer_position(buffer);
	}
	ldns_buffer_free(buffer);
	return refused;
}

static char **texts;

static unsigned from_text(const void *arg)
{
	const struct cases *c = arg;
	unsigned refused = 0;
	for (uint32_t i = 0; i < c->count; i++) {
		ldns_rdf *name = ldns_dname_new_frm_str(texts[i]);
		if (name == NULL)
			refused++;
		else
			sink += ldns_rdf_size(name);
		ldns_rdf_deep_free(name);
	}
	return refused;
}

static void free_node(ldns_rbnode_t *node, void *arg)
{
	(void)arg;
	ldns_rdf_deep_free((ldns_rdf *)node->key);
	LDNS_FREE(node);
}

static unsigned compose(const void *arg)
{
	const struct pairs *p = arg;
	unsigned refused = 0;
	ldns_buffer *buffer = ldns_buffer_new(65535);
	ldns_rbtree_t *tree = ldns_rbtree_create(ldns_dname_compare_v);
	for (uint32_t i = 0; i < p->count; i++)
		refused += ldns_dname2buffer_wire_compress(buffer, p->all[i], tree) != LDNS_STATUS_OK;
	sink += ldns_buffer_position(buffer);
	ldns_traverse_postorder(tree, free_node, NULL);
	ldns_rbtree_free(tree);
	ldns_buffer_free(buffer);
	return refused;
}

static struct pairs names(const struct cases *c)
{
	struct pairs res = { c->count, calloc(c->count, sizeof(ldns_rdf *)) };
	for (uint32_t i = 0; i < c->count; i++)
		res.all[i] = ldns_dname_new_frm_data(c->all[i].len, c->all[i].octets);
	return res;
}

/* ldns copies each record with its data. */
static unsigned whole(const void *arg)
{
	const struct cases *c = arg;
	unsigned refused = 0;
	for (uint32_t i = 0; i < c->count; i++) {
		ldns_pkt *pkt = NULL;
		refused += ldns_wire2pkt(&pkt, c->all[i].octets, c->all[i].len) != LDNS_STATUS_OK;
		if (pkt != NULL)
			sink += ldns_pkt_ancount(pkt);
		ldns_pkt_free(pkt);
	}
	return refused;
}

static ldns_rr *record(const struct one *owner, ldns_rr_type type, ldns_rdf *data)
{
	ldns_rr *rr = ldns_rr_new();
	ldns_rr_set_owner(rr, ldns_dname_new_frm_data(owner->len, owner->octets));
	ldns_rr_set_type(rr, type);
	ldns_rr_set_class(rr, LDNS_RR_CLASS_IN);
	ldns_rr_set_ttl(rr, 3600);
	ldns_rr_push_rdf(rr, data);
	return rr;
}

static ldns_rr *address_record(const struct one *owner, uint8_t number)
{
	const uint8_t address[4] = { 192, 0, 2, number };
	return record(owner, LDNS_RR_TYPE_A, ldns_rdf_new_frm_data(LDNS_RDF_TYPE_A, sizeof address, address));
}

static ldns_pkt *message_of(unsigned kind, const struct cases *names)
{
	ldns_pkt *pkt = ldns_pkt_new();
	ldns_rr *question = ldns_rr_new();
	ldns_rr_set_owner(question, ldns_dname_new_frm_data(names->all[0].len, names->all[0].octets));
	ldns_rr_set_type(question, LDNS_RR_TYPE_A);
	ldns_rr_set_class(question, LDNS_RR_CLASS_IN);
	ldns_rr_set_question(question, true);
	ldns_pkt_push_rr(pkt, LDNS_SECTION_QUESTION, question);
	ldns_pkt_set_rd(pkt, true);
	ldns_pkt_set_qr(pkt, kind != 0);
	if (kind == 0)
		ldns_pkt_set_edns_udp_size(pkt, 1232);
	for (unsigned i = 0; kind == 1 && i < 10; i++)
		ldns_pkt_push_rr(pkt, LDNS_SECTION_ANSWER, address_record(&names->all[0], i));
	for (unsigned i = 2; i < names->count; i++) {
		ldns_rdf *server = ldns_dname_new_frm_data(names->all[i].len, names->all[i].octets);
		ldns_pkt_push_rr(pkt, LDNS_SECTION_AUTHORITY, record(&names->all[1], LDNS_RR_TYPE_NS, server));
		ldns_pkt_push_rr(pkt, LDNS_SECTION_ADDITIONAL, address_record(&names->all[i], 53));
	}
	return pkt;
}

struct messages {
	uint32_t count;
	ldns_pkt **all;
	ldns_buffer *buffer;
};

static unsigned write_all(const void *arg)
{
	const struct messages *ms = arg;
	unsigned refused = 0;
	for (uint32_t i = 0; i < ms->count; i++)
		for (uint16_t id = 0; id < PER_CALL; id++) {
			ldns_buffer_clear(ms->buffer);
			ldns_pkt_set_id(ms->all[i], id);
			refused += ldns_pkt2buffer_wire(ms->buffer, ms->all[i]) != LDNS_STATUS_OK;
			sink += ldns_buffer_position(ms->buffer);
		}
	return refused;
}

static void measure_writing(const char *folder, unsigned kind)
{
	struct cases c = read_cases(folder, WRITES[kind]);
	struct messages ms = { c.count, calloc(c.count, sizeof(ldns_pkt *)), ldns_buffer_new(512) };
	for (uint32_t i = 0; i < c.count; i++) {
		struct cases names = split_names(c.all[i].octets, NAMES[kind]);
		ms.all[i] = message_of(kind, &names);
	}
	measure("ldns", WRITTEN[kind], WRITES[kind], c.count * PER_CALL, write_all, &ms);
}

int main(int argc, char **argv)
{
	const char *folder = folder_of(argc, argv);
	for (unsigned i = 0; i < ALL(MESSAGES); i++) {
		struct cases c = read_cases(folder, MESSAGES[i]);
		measure("ldns", "to_name", MESSAGES[i], c.count, parse, &c);
	}
	for (unsigned i = 0; i < ALL(FLAT); i++) {
		struct cases c = read_cases(folder, FLAT[i]);
		struct pairs p = names(&c);
		measure("ldns", "check_cmp", FLAT[i], c.count / 2, compare, &p);
		measure("ldns", "check_show_fixed", FLAT[i], c.count, show, &p);
	}
	for (unsigned i = 0; i < ALL(TEXTS); i++) {
		struct cases c = read_cases(folder, TEXTS[i]);
		texts = calloc(c.count, sizeof *texts);
		for (uint32_t j = 0; j < c.count; j++)
			texts[j] = strndup((const char *)c.all[j].octets, c.all[j].len);
		measure("ldns", "vec_from_str", TEXTS[i], c.count, from_text, &c);
	}
	for (unsigned i = 0; i < ALL(WHOLE); i++) {
		struct cases c = read_cases(folder, WHOLE[i]);
		measure("ldns", "record_data", WHOLE[i], c.count, whole, &c);
	}
	for (unsigned i = 0; i < ALL(STREAMS); i++)
		for (unsigned j = 0; j < ALL(COUNTS); j++) {
			char file[64];
			snprintf(file, sizeof file, "%s-%u.stream", STREAMS[i], COUNTS[j]);
			struct cases c = split_stream(folder, file);
			struct pairs p = names(&c);
			measure("ldns", "compress", file, c.count, compose, &p);
		}
	for (unsigned i = 0; i < ALL(WRITES); i++)
		measure_writing(folder, i);
	return 0;
}
