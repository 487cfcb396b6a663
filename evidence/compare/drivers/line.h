/* The line protocol of the drivers, for those in C. A driver is this file, and a `struct library` named `library`.
 *
 * A line of standard input asks, a line of standard output answers. Octets are in hexadecimal, `-` where there are
 * none. WIRE is the wire format of a name without compression. LABELS are its labels in hexadecimal with dots between,
 * the root left out; `.` is the root alone.
 *
 *   version                 ok VERSION
 *   read MESSAGE OFFSET     ok LABELS END   END is the offset after the name
 *   text TEXT               ok LABELS       of the name that the text is
 *   show WIRE               ok TEXT
 *   sort WIRE WIRE ..       ok LABELS LABELS ..
 *   time read FILE          ok NANOSECONDS COUNT; FILE has a message, and in its second line offsets in decimal
 *   time compare FILE       the same; FILE has the WIRE of one name in each line; each is compared with the next
 *   time sort FILE
 *   time compose FILE       COUNT is of octets written, in one message of at most 65,535, with compression
 *
 * `no` is a refusal, `none` a call that the library doesn't have. A time is that of the processor, which other work on
 * the machine disturbs little, for the best of several rounds.
 */
#include <stdbool.h>
#include <stddef.h>
#include <stdint.h>
#include <stdio.h>
#include <stdlib.h>
#include <string.h>
#include <sys/mman.h>
#include <time.h>
#include <unistd.h>

enum { NAME_ROOM = 1024, TEXT_ROOM = 8192, MESSAGE_ROOM = 65535 };

struct name {
    size_t len;
    uint8_t wire[NAME_ROOM];
};

/* A null pointer stands for a call that the library doesn't have. False is a refusal. */
struct library {
    const char *(*version)(void);
    /* Where `name` is null only the library's own call is made, so that it can be timed. */
    bool (*read)(const uint8_t *message, size_t len, size_t offset, struct name *name, size_t *end);
    bool (*from_text)(const char *text, size_t len, struct name *name);
    bool (*to_text)(const struct name *name, char *text, size_t *len);
    int (*compare)(const struct name *left, const struct name *right);
    /* Composes names one after another behind a header of 12 octets, and tells the octets written. */
    size_t (*compose)(const struct name *names, size_t count, uint8_t *message);
};

extern const struct library library;

static inline void *need(void *memory)
{
    if (memory == NULL) {
        perror("driver");
        exit(3);
    }
    return memory;
}

/* The octets that a word spells. */
static inline uint8_t *octets_of(const char *word, size_t *len)
{
    *len = strcmp(word, "-") == 0 ? 0 : strlen(word) / 2;
    uint8_t *octets = need(malloc(*len + 1));
    for (size_t i = 0; i < *len; i++) {
        unsigned octet;
        if (sscanf(word + 2 * i, "%2x", &octet) != 1)
            exit(2);
        octets[i] = (uint8_t)octet;
    }
    return octets;
}

/* Copies a message to the end of memory behind which nothing can be read: a library that reads past it dies. */
static inline const uint8_t *before_the_wall(const uint8_t *message, size_t len)
{
    static uint8_t *wall;
    if (wall == NULL) {
        size_t room = 1 << 20, page = (size_t)sysconf(_SC_PAGESIZE);
        uint8_t *memory = mmap(NULL, room + page, PROT_READ | PROT_WRITE, MAP_PRIVATE | MAP_ANONYMOUS, -1, 0);
        if (memory == MAP_FAILED || mprotect(memory + room, page, PROT_NONE) != 0)
            need(NULL);
        wall = memory + room;
    }
    memcpy(wall - len, message, len);
    return wall - len;
}

static inline struct name name_of(const char *word)
{
    struct name name;
    uint8_t *octets = octets_of(word, &name.len);
    if (name.len > NAME_ROOM)
        exit(2);
    memcpy(name.wire, octets, name.len);
    free(octets);
    return name;
}

/* Takes the name that a text spells, as RFC 1035, 5.1 has it: for libraries that give names as text alone. */
static inline bool name_of_text(const char *text, struct name *name)
{
    size_t label = 0;
    name->len = 1;
    for (const char *at = text; *at != '\0'; at++) {
        unsigned octet = (unsigned char)*at;
        if (octet == '.') {
            name->wire[label] = (uint8_t)(name->len - label - 1);
            label = name->len++;
            continue;
        }
        if (octet == '\\' && at[1] >= '0' && at[1] <= '9') {
            octet = (unsigned)(at[1] - '0') * 100 + (unsigned)(at[2] - '0') * 10 + (unsigned)(at[3] - '0');
            at += 3;
        } else if (octet == '\\') {
            octet = (unsigned char)*++at;
        }
        if (name->len + 2 > NAME_ROOM)
            return false;
        name->wire[name->len++] = (uint8_t)octet;
    }
    if (name->len - label > 1) {
        name->wire[label] = (uint8_t)(name->len - label - 1);
        label = name->len++;
    }
    name->wire[label] = 0;
    return true;
}

static inline void put_octets(const uint8_t *octets, size_t len)
{
    for (size_t i = 0; i < len; i++)
        printf("%02x", octets[i]);
}

static inline void put_labels(const struct name *name)
{
    printf(name->wire[0] == 0 ? " ." : " ");
    for (size_t at = 0; at < name->len && name->wire[at] != 0; at += name->wire[at] + 1u) {
        printf(at == 0 ? "" : ".");
        put_octets(name->wire + at + 1, name->wire[at]);
    }
}

static inline int compare_names(const void *left, const void *right)
{
    return library.compare(*(const struct name *const *)left, *(const struct name *const *)right);
}

static inline void sort_names(const struct name **sorted, const struct name *names, size_t count)
{
    for (size_t i = 0; i < count; i++)
        sorted[i] = &names[i];
    qsort(sorted, count, sizeof *sorted, compare_names);
}

/* What is timed: a message and offsets in it, or names. */
struct work {
    uint8_t *message;
    size_t len, count;
    size_t *offsets;
    struct name *names;
    const struct name **sorted;
};

static inline size_t work_read(const struct work *work)
{
    size_t accepted = 0, end;
    for (size_t i = 0; i < work->count; i++)
        accepted += library.read(work->message, work->len, work->offsets[i], NULL, &end);
    return accepted;
}

static inline size_t work_compare(const struct work *work)
{
    size_t less = 0;
    for (size_t i = 0; i + 1 < work->count; i++)
        less += library.compare(&work->names[i], &work->names[i + 1]) < 0;
    return less;
}

static inline size_t work_sort(const struct work *work)
{
    sort_names(work->sorted, work->names, work->count);
    return work->count;
}

static inline size_t work_compose(const struct work *work)
{
    return library.compose(work->names, work->count, work->message);
}

static inline double now(void)
{
    struct timespec time;
    clock_gettime(CLOCK_PROCESS_CPUTIME_ID, &time);
    return (double)time.tv_sec * 1e9 + (double)time.tv_nsec;
}

/* Rounds for two tenths of a second, at least one and at most 200; the best counts. */
static inline void measure(size_t (*round)(const struct work *), const struct work *work)
{
    double best = 0, begun = now();
    size_t count = 0;
    for (int i = 0; i == 0 || (i < 200 && now() - begun < 2e8); i++) {
        double start = now();
        count = round(work);
        double took = now() - start;
        best = i == 0 || took < best ? took : best;
    }
    printf("ok %.0f %zu", best, count);
}

static inline void time_file(const char *what, const char *path)
{
    bool reads = strcmp(what, "read") == 0;
    size_t (*round)(const struct work *) = reads ? work_read : strcmp(what, "compare") == 0 ? work_compare
        : strcmp(what, "sort") == 0 ? work_sort : work_compose;
    if (reads ? !library.read : round == work_compose ? !library.compose : !library.compare) {
        printf("none");
        return;
    }
    FILE *file = need(fopen(path, "r"));
    struct work work = { 0 };
    char *line = NULL;
    size_t room = 0;
    if (!reads)
        work.message = need(malloc(MESSAGE_ROOM));
    while (getline(&line, &room, file) > 0) {
        line[strcspn(line, "\n")] = '\0';
        if (reads && work.message == NULL) {
            work.message = octets_of(line, &work.len);
        } else if (reads) {
            for (char *word = strtok(line, " "); word != NULL; word = strtok(NULL, " ")) {
                work.offsets = need(realloc(work.offsets, (work.count + 1) * sizeof *work.offsets));
                work.offsets[work.count++] = strtoul(word, NULL, 10);
            }
        } else {
            work.names = need(realloc(work.names, (work.count + 1) * sizeof *work.names));
            work.names[work.count++] = name_of(line);
        }
    }
    work.sorted = need(calloc(work.count + 1, sizeof *work.sorted));
    measure(round, &work);
    fclose(file);
    free(line);
    free(work.message);
    free(work.offsets);
    free(work.names);
    free(work.sorted);
}

static inline void answer_read(const char *message_word, const char *offset_word)
{
    static struct name name;
    size_t len, end = 0;
    uint8_t *octets = octets_of(message_word, &len);
    const uint8_t *message = before_the_wall(octets, len);
    free(octets);
    if (library.read(message, len, strtoul(offset_word, NULL, 10), &name, &end)) {
        printf("ok");
        put_labels(&name);
        printf(" %zu", end);
    } else {
        printf("no");
    }
}

static inline void answer_text(const char *word)
{
    static struct name name;
    size_t len;
    uint8_t *octets = octets_of(word, &len);
    char *text = need(calloc(len + 1, 1));
    memcpy(text, octets, len);
    if (library.from_text(text, len, &name)) {
        printf("ok");
        put_labels(&name);
    } else {
        printf("no");
    }
    free(octets);
    free(text);
}

static inline void answer_show(const char *word)
{
    static char text[TEXT_ROOM];
    struct name name = name_of(word);
    size_t len = 0;
    if (library.to_text(&name, text, &len)) {
        printf(len == 0 ? "ok -" : "ok ");
        put_octets((const uint8_t *)text, len);
    } else {
        printf("no");
    }
}

static inline void answer_sort(void)
{
    struct name *names = NULL;
    size_t count = 0;
    for (const char *word = strtok(NULL, " "); word != NULL; word = strtok(NULL, " ")) {
        names = need(realloc(names, (count + 1) * sizeof *names));
        names[count++] = name_of(word);
    }
    const struct name **sorted = need(calloc(count + 1, sizeof *sorted));
    sort_names(sorted, names, count);
    printf("ok");
    for (size_t i = 0; i < count; i++)
        put_labels(sorted[i]);
    free(sorted);
    free(names);
}

int main(void)
{
    char *line = NULL;
    size_t room = 0;
    while (getline(&line, &room, stdin) > 0) {
        line[strcspn(line, "\n")] = '\0';
        const char *call = strtok(line, " ");
        if (call == NULL)
            return 2;
        if (strcmp(call, "version") == 0) {
            printf("ok %s", library.version());
        } else if (strcmp(call, "sort") == 0 && library.compare) {
            answer_sort();
        } else {
            const char *first = strtok(NULL, " "), *second = strtok(NULL, " ");
            if (strcmp(call, "read") == 0 && library.read && second)
                answer_read(first, second);
            else if (strcmp(call, "text") == 0 && library.from_text && first)
                answer_text(first);
            else if (strcmp(call, "show") == 0 && library.to_text && first)
                answer_show(first);
            else if (strcmp(call, "time") == 0 && second)
                time_file(first, second);
            else
                printf("none");
        }
        putchar('\n');
        fflush(stdout);
    }
    free(line);
    return 0;
}
