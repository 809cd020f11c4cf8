// A plain reader of feeds, for `lines.sh` to measure against. It finds the line feeds by `memchr`, splits each line at its
// blanks, looks the match up in a hash table of its own, and reads the odds and the limit. It refuses nothing and keeps no
// offers. Prints the lines of all the feeds that are named, the names of matches in them, a sum over the numbers, and the
// nanoseconds that it took without opening and reading the files.
#include <stdio.h>
#include <stdlib.h>
#include <string.h>
#include <time.h>

enum { SLOTS = 1024, MOST_FIELDS = 8, MOST_BYTES = 1 << 23 };

struct field {
    const char *at;
    size_t size;
};

struct match {
    struct field name;
    unsigned odds, limit;
};

static char text[MOST_BYTES];
static struct match table[SLOTS];
static unsigned long lines, names, sum;

static struct match *match_of(struct field name) {
    unsigned hash = 2166136261u;
    for (size_t i = 0; i < name.size; i++)
        hash = (hash ^ (unsigned char)name.at[i]) * 16777619u;
    for (unsigned slot = hash % SLOTS;; slot = (slot + 1) % SLOTS) {
        struct match *match = &table[slot];
        if (!match->name.at) {
            names++;
            match->name = name;
            return match;
        }
        if (match->name.size == name.size && !memcmp(match->name.at, name.at, name.size))
            return match;
    }
}

static unsigned number(struct field digits) {
    unsigned value = 0;
    for (size_t i = 0; i < digits.size; i++)
        if (digits.at[i] >= '0' && digits.at[i] <= '9')
            value = value * 10 + (unsigned)(digits.at[i] - '0');
    return value;
}

static void read_line(const char *at, const char *end) {
    struct field fields[MOST_FIELDS];
    int count = 0;
    lines++;
    while (at < end && count < MOST_FIELDS) {
        while (at < end && (*at == ' ' || *at == '\t'))
            at++;
        const char *start = at;
        while (at < end && *at != ' ' && *at != '\t')
            at++;
        if (at > start)
            fields[count++] = (struct field){start, (size_t)(at - start)};
    }
    if (count < 3 || *fields[0].at == '#')
        return;
    struct match *match = match_of(fields[1]);
    if (count >= 6) {
        match->odds = number(fields[count - 2]);
        match->limit = number(fields[count - 1]);
        sum += match->odds + match->limit;
    }
}

static void read_feed(size_t size) {
    memset(table, 0, sizeof table);
    for (const char *at = text, *end = text + size; at < end;) {
        const char *feed = memchr(at, '\n', (size_t)(end - at));
        if (!feed)
            break;
        read_line(at, feed);
        at = feed + 1;
    }
}

int main(int count, char **words) {
    long long nanoseconds = 0;
    for (int k = 1; k < count; k++) {
        FILE *file = fopen(words[k], "rb");
        if (!file)
            return 1;
        size_t size = fread(text, 1, MOST_BYTES, file);
        fclose(file);
        struct timespec start, stop;
        clock_gettime(CLOCK_MONOTONIC, &start);
        read_feed(size);
        clock_gettime(CLOCK_MONOTONIC, &stop);
        nanoseconds += (stop.tv_sec - start.tv_sec) * 1000000000LL + (stop.tv_nsec - start.tv_nsec);
    }
    printf("%lu %lu %lu %lld\n", lines, names, sum, nanoseconds);
    return 0;
}
