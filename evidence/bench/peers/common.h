/* The input files of inputs.py, and the measuring of a loop over them. */

#include <stdint.h>
#include <stdio.h>
#include <stdlib.h>
#include <string.h>
#include <time.h>

struct one {
	uint32_t place, len;
	const uint8_t *octets;
};

struct cases {
	uint32_t count;
	struct one *all;
};

static uint32_t word_at(const uint8_t *p)
{
	return p[0] | p[1] << 8 | p[2] << 16 | (uint32_t)p[3] << 24;
}

static struct cases read_cases(const char *folder, const char *name)
{
	char path[4096];
	snprintf(path, sizeof path, "%s/%s", folder, name);
	FILE *f = fopen(path, "rb");
	if (f == NULL) {
		perror(path);
		exit(1);
	}
	fseek(f, 0, SEEK_END);
	long size = ftell(f);
	rewind(f);
	uint8_t *data = malloc(size);
	if (data == NULL || fread(data, 1, size, f) != (size_t)size)
		exit(1);
	fclose(f);
	struct cases res = { word_at(data), NULL };
	res.all = calloc(res.count, sizeof *res.all);
	const uint8_t *at = data + 4;
	for (uint32_t i = 0; i < res.count; i++) {
		res.all[i].place = word_at(at);
		res.all[i].len = word_at(at + 4);
		res.all[i].octets = at + 8;
		at += 8 + res.all[i].len;
	}
	return res;
}

/* So many names that stand behind one another, each a case. */
static struct cases split_names(const uint8_t *at, uint32_t count)
{
	struct cases res = { count, calloc(count, sizeof(struct one)) };
	for (uint32_t i = 0; i < count; i++) {
		res.all[i].octets = at;
		while (*at != 0)
			at += 1 + *at;
		at++;
		res.all[i].len = at - res.all[i].octets;
	}
	return res;
}

/* The names of a stream, each a case. */
static struct cases split_stream(const char *folder, const char *name)
{
	struct cases stream = read_cases(folder, name);
	return split_names(stream.all[0].octets, stream.all[0].place);
}

static double now(void)
{
	struct timespec t;
	clock_gettime(CLOCK_MONOTONIC, &t);
	return t.tv_sec * 1e9 + t.tv_nsec;
}

static volatile uint64_t sink;

/* What the operations begin with that are wanted. */
static const char *wanted = "";
/* Where another program counts instructions, how often all calls of a file are made, without measuring. */
static unsigned rounds;

/* The folder of the input files: PROGRAM FOLDER [--rounds N] [WORD]. */
static const char *folder_of(int argc, char **argv)
{
	int at = 2;
	if (argc > 3 && strcmp(argv[at], "--rounds") == 0) {
		rounds = atoi(argv[at + 1]);
		at += 2;
	}
	if (argc > at)
		wanted = argv[at];
	if (argc < 2)
		exit(2);
	return argv[1];
}

/* `op` makes all calls of a file once, and answers how many were refused. The best turn counts. */
static void measure(const char *peer, const char *name, const char *file, uint32_t calls,
                    unsigned (*op)(const void *), const void *arg)
{
	if (strncmp(name, wanted, strlen(wanted)) != 0)
		return;
	for (unsigned i = 0; i < rounds; i++)
		sink += op(arg);
	if (rounds > 0)
		return;
	double start = now();
	unsigned refused = op(arg);
	double once = now() - start;
	unsigned repeat = once < 1e6 ? 1e6 / (once > 100 ? once : 100) : 1;
	if (refused != 0)
		return;
	double best = 1e300;
	double begun = now();
	for (int i = 0; i < 300 && (i < 5 || now() - begun < 5e8); i++) {
		start = now();
		for (unsigned j = 0; j < repeat; j++)
			sink += op(arg);
		double each = (now() - start) / ((double)repeat * calls);
		if (each < best)
			best = each;
	}
	printf("%s\t%s\t%s\t%.1f\t-\n", peer, name, file, best);
}

static const char *const MESSAGES[] = { "typical.msg", "pointer.msg", "deep.msg",
                                        "worst.msg", "short.msg", "long.msg" };
static const char *const FLAT[] = { "typical.names", "deep.names" };
static const char *const TEXTS[] = { "typical.texts", "escaped.texts" };
static const char *const WHOLE[] = { "records-4.whole", "records-100.whole", "records-1000.whole" };
static const char *const STREAMS[] = { "mixed", "hosts", "middles" };
static const unsigned COUNTS[] = { 10, 30, 100, 300, 1000, 3000, 10000 };

static const char *const WRITES[] = { "query.writes", "answer.writes", "referral.writes" };
static const char *const WRITTEN[] = { "write_query", "write_answer", "write_referral" };
/* How many names a message of each kind has, and how many messages are written of them in one call. */
static const unsigned NAMES[] = { 1, 1, 6 };
enum { PER_CALL = 16 };

#define ALL(xs) (sizeof(xs) / sizeof *(xs))
