/* ldns */
#include <ldns/ldns.h>
#include "line.h"

static const char *version(void)
{
    return ldns_version();
}

static bool take(ldns_rdf *rdf, struct name *name)
{
    bool fits = ldns_rdf_size(rdf) <= NAME_ROOM;
    if (fits && name != NULL) {
        name->len = ldns_rdf_size(rdf);
        memcpy(name->wire, ldns_rdf_data(rdf), name->len);
    }
    ldns_rdf_deep_free(rdf);
    return fits;
}

static bool read_name(const uint8_t *message, size_t len, size_t offset, struct name *name, size_t *end)
{
    ldns_rdf *rdf = NULL;
    *end = offset;
    if (ldns_wire2dname(&rdf, message, len, end) != LDNS_STATUS_OK)
        return false;
    return take(rdf, name);
}

static bool from_text(const char *text, size_t len, struct name *name)
{
    (void)len;
    ldns_rdf *rdf = NULL;
    if (ldns_str2rdf_dname(&rdf, text) != LDNS_STATUS_OK)
        return false;
    return take(rdf, name);
}

/* The name as ldns has it, over the same octets. */
static ldns_rdf view(const struct name *name)
{
    return (ldns_rdf){ ._size = name->len, ._type = LDNS_RDF_TYPE_DNAME, ._data = (void *)name->wire };
}

static bool to_text(const struct name *name, char *text, size_t *len)
{
    ldns_rdf rdf = view(name);
    char *made = ldns_rdf2str(&rdf);
    if (made == NULL)
        return false;
    *len = strlen(made);
    memcpy(text, made, *len);
    free(made);
    return true;
}

static int compare(const struct name *left, const struct name *right)
{
    ldns_rdf left_rdf = view(left), right_rdf = view(right);
    return ldns_dname_compare(&left_rdf, &right_rdf);
}

static void free_node(ldns_rbnode_t *node, void *unused)
{
    (void)unused;
    ldns_rdf_deep_free((ldns_rdf *)node->key);
    LDNS_FREE(node);
}

static size_t compose(const struct name *names, size_t count, uint8_t *message)
{
    (void)message;
    ldns_buffer *buffer = need(ldns_buffer_new(MESSAGE_ROOM));
    ldns_rbtree_t *tree = need(ldns_rbtree_create(ldns_dname_compare_v));
    ldns_buffer_skip(buffer, 12);
    for (size_t i = 0; i < count; i++) {
        ldns_rdf rdf = view(&names[i]);
        if (ldns_buffer_remaining(buffer) < 255
            || ldns_dname2buffer_wire_compress(buffer, &rdf, tree) != LDNS_STATUS_OK)
            break;
    }
    size_t written = ldns_buffer_position(buffer);
    ldns_traverse_postorder(tree, free_node, NULL);
    ldns_rbtree_free(tree);
    ldns_buffer_free(buffer);
    return written;
}

const struct library library = { version, read_name, from_text, to_text, compare, compose };
