// Merges two sorted OPL files of canonical lines, for bench/limit: parses only the kind, the id and the version of each line, and
// copies its bytes. It tests nothing else, and equal lines are written once. Usage: keys A B >OUT
#include <stdio.h>
#include <stdlib.h>
#include <string.h>
#include <fcntl.h>
#include <unistd.h>
#include <sys/mman.h>
#include <sys/stat.h>

typedef unsigned long long number;

// A file and its next line: the line's bytes, and its key as two numbers.
struct input { const char *at, *end, *after; number object, version; };

static char buffer[1 << 16];
static size_t used;

static void write_out(void) {
    for (size_t done = 0; done < used;) {
        ssize_t count = write(1, buffer + done, used - done);
        if (count <= 0) { perror("write"); exit(1); }
        done += count;
    }
    used = 0;
}

static void append(const char *bytes, size_t size) {
    while (size > 0) {
        if (used == sizeof buffer) write_out();
        size_t part = sizeof buffer - used < size ? sizeof buffer - used : size;
        memcpy(buffer + used, bytes, part);
        used += part, bytes += part, size -= part;
    }
}

// Reads the key of the line at the front of the input. The kind and the sign of the id are above the id's absolute value.
static void read_key(struct input *in) {
    if (in->at == in->end) { in->object = ~0ull; return; }
    const char *line_end = memchr(in->at, '\n', in->end - in->at), *byte = in->at + 1;
    in->after = line_end ? line_end + 1 : in->end;
    number kind = *in->at == 'n' ? 0 : *in->at == 'w' ? 1 : 2, id = 0, negative = *byte == '-';
    for (byte += negative; *byte >= '0' && *byte <= '9'; byte++) id = id * 10 + (*byte - '0');
    in->object = kind << 62 | (number)(!negative && id > 0) << 61 | id;
    in->version = 0;
    for (byte += 2; *byte >= '0' && *byte <= '9'; byte++) in->version = in->version * 10 + (*byte - '0');
}

static struct input opened(const char *name) {
    struct stat state;
    int file = open(name, O_RDONLY);
    if (file < 0 || fstat(file, &state)) { perror(name); exit(1); }
    const char *bytes = state.st_size ? mmap(0, state.st_size, PROT_READ, MAP_PRIVATE | MAP_POPULATE, file, 0) : "";
    if (bytes == MAP_FAILED) { perror(name); exit(1); }
    struct input in = {bytes, bytes + state.st_size, bytes, 0, 0};
    read_key(&in);
    return in;
}

// Below 0 if the line of `a` comes first, 0 if the two lines are equal.
static int compare(const struct input *a, const struct input *b) {
    if (a->object != b->object) return a->object < b->object ? -1 : 1;
    if (a->version != b->version) return a->version < b->version ? -1 : 1;
    size_t left = a->after - a->at, right = b->after - b->at;
    int order = memcmp(a->at, b->at, left < right ? left : right);
    return order ? order : left < right ? -1 : left > right;
}

static void next(struct input *in) {
    in->at = in->after;
    read_key(in);
}

int main(int count, char **words) {
    if (count != 3) { fputs("usage: keys A B >OUT\n", stderr); return 2; }
    struct input a = opened(words[1]), b = opened(words[2]);
    while (a.at != a.end || b.at != b.end) {
        int order = compare(&a, &b);
        struct input *least = order <= 0 ? &a : &b;
        append(least->at, least->after - least->at);
        next(least);
        if (order == 0) next(&b);
    }
    write_out();
    return 0;
}
