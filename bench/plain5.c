/* Level 5 in plain C, as a yardstick for the program: the same scripts, the same choice between the small and the large
   write for each piece, the same calls of the devices, the same output, and fsync of each component at the end. It keeps
   no promise when a component fails, and serves client 0 alone, one operation after the other.

       plain5 run UNIT COMPONENT..  < SCRIPT      writes and reads, as the program with -w 0 serves them
       plain5 init UNIT COMPONENT..               makes each check unit, as -i does

   Built by cc -O3. bench/beside_c.sh compares what it prints, and what it leaves on the components, with the program. */
#define _POSIX_C_SOURCE 200809L
#include <fcntl.h>
#include <stdbool.h>
#include <stdio.h>
#include <stdlib.h>
#include <string.h>
#include <sys/stat.h>
#include <unistd.h>

enum {
    SECTOR = 512,
    LABEL_SECTORS = 64,
    MOST_COLUMNS = 32,
    MOST_UNIT = 128,
    MOST_STRIPES = 16,
    MOST_PATTERN = 32,
    CHUNK = 65536
};

typedef unsigned char byte;

struct array {
    int columns, data;
    unsigned unit;
    unsigned long stripes;
    int file[MOST_COLUMNS];
};

/* What is written: these bytes again and again, from the start of each sector. */
struct pattern {
    int length;
    byte bytes[MOST_PATTERN];
};

/* The offsets of each data unit of one stripe that a span touches: none where both are the same. */
struct touch {
    unsigned from[MOST_COLUMNS], to[MOST_COLUMNS];
};

static void stop(const char *why) {
    fprintf(stderr, "plain5: %s\n", why);
    exit(1);
}

/* -- The array ----------------------------------------------------------------------------------------------------- */

static void open_array(struct array *a, unsigned unit, int columns, char **names) {
    if (columns < 2 || columns > MOST_COLUMNS || unit < 1 || unit > MOST_UNIT) stop("no such array");
    a->columns = columns;
    a->data = columns - 1;
    a->unit = unit;
    a->stripes = (unsigned long)-1;
    for (int c = 0; c < columns; c++) {
        struct stat about;
        a->file[c] = open(names[c], O_RDWR);
        if (a->file[c] < 0 || fstat(a->file[c], &about) < 0) stop("a component can't be opened");
        unsigned long rows = ((unsigned long)about.st_size / SECTOR - LABEL_SECTORS) / unit;
        if (rows < a->stripes) a->stripes = rows;
    }
}

static void settle(const struct array *a) {
    for (int c = 0; c < a->columns; c++)
        if (fsync(a->file[c]) < 0) stop("a component can't be settled");
}

/* Left-symmetric: the check unit goes down by a column with each stripe, and the data units follow behind it. */
static int column_of(const struct array *a, unsigned long stripe, int unit) {
    int check = a->columns - 1 - (int)(stripe % a->columns);
    return unit == a->data ? check : (check + 1 + unit) % a->columns;
}

static off_t place_of(const struct array *a, unsigned long stripe, unsigned offset) {
    return (off_t)(LABEL_SECTORS + stripe * a->unit + offset) * SECTOR;
}

static void read_unit(const struct array *a, unsigned long stripe, int unit, unsigned from, unsigned count, byte *to) {
    ssize_t bytes = (ssize_t)count * SECTOR;
    if (pread(a->file[column_of(a, stripe, unit)], to, bytes, place_of(a, stripe, from)) != bytes) stop("a read failed");
}

static void write_unit(const struct array *a, unsigned long stripe, int unit, unsigned from, unsigned count, const byte *of) {
    ssize_t bytes = (ssize_t)count * SECTOR;
    if (pwrite(a->file[column_of(a, stripe, unit)], of, bytes, place_of(a, stripe, from)) != bytes) stop("a write failed");
}

static void sum_into(byte *restrict to, const byte *restrict of, size_t bytes) {
    for (size_t i = 0; i < bytes; i++) to[i] ^= of[i];
}

/* -- Writes -------------------------------------------------------------------------------------------------------- */

static void fill(byte *to, size_t bytes, const struct pattern *pattern) {
    if (pattern->length == 1) {
        memset(to, pattern->bytes[0], bytes);
        return;
    }
    memcpy(to, pattern->bytes, pattern->length);
    for (size_t done = pattern->length; done < bytes; done *= 2) memcpy(to + done, to, done < bytes - done ? done : bytes - done);
}

/* Offsets of a stripe at which these data units are touched, and no others. */
static void write_piece(const struct array *a, unsigned long stripe, unsigned from, unsigned count, const bool *touched, const struct pattern *pattern) {
    static byte fresh[MOST_COLUMNS][MOST_UNIT * SECTOR], old[MOST_UNIT * SECTOR], sum[MOST_UNIT * SECTOR];
    size_t bytes = (size_t)count * SECTOR;
    int many = 0;
    for (int i = 0; i < a->data; i++) many += touched[i];
    bool small = many + 1 <= a->data - many;
    if (small) read_unit(a, stripe, a->data, from, count, sum);
    else memset(sum, 0, bytes);
    for (int i = 0; i < a->data; i++) {
        if (touched[i] == small) {
            read_unit(a, stripe, i, from, count, old);
            sum_into(sum, old, bytes);
        }
        if (touched[i]) {
            fill(fresh[i], bytes, pattern);
            sum_into(sum, fresh[i], bytes);
        }
    }
    for (int i = 0; i < a->data; i++)
        if (touched[i]) write_unit(a, stripe, i, from, count, fresh[i]);
    write_unit(a, stripe, a->data, from, count, sum);
}

static void write_stripe(const struct array *a, unsigned long stripe, const struct touch *t, const struct pattern *pattern) {
    for (unsigned from = 0; from < a->unit;) {
        bool touched[MOST_COLUMNS], some = false;
        unsigned to = a->unit;
        for (int i = 0; i < a->data; i++) {
            touched[i] = t->from[i] <= from && from < t->to[i];
            some |= touched[i];
            if (from < t->from[i] && t->from[i] < to) to = t->from[i];
            if (from < t->to[i] && t->to[i] < to) to = t->to[i];
        }
        if (some) write_piece(a, stripe, from, to - from, touched, pattern);
        from = to;
    }
}

/* -- Spans --------------------------------------------------------------------------------------------------------- */

static unsigned long stripe_sectors(const struct array *a) {
    return (unsigned long)a->data * a->unit;
}

/* What the blocks from `first` on, up to `end`, touch of a stripe. */
static struct touch touch_of(const struct array *a, unsigned long stripe, unsigned long first, unsigned long end) {
    struct touch t;
    for (int i = 0; i < a->data; i++) {
        unsigned long start = stripe * stripe_sectors(a) + (unsigned long)i * a->unit, past = start + a->unit;
        bool some = first < past && start < end;
        t.from[i] = some && first > start ? (unsigned)(first - start) : 0;
        t.to[i] = !some ? t.from[i] : end < past ? (unsigned)(end - start) : a->unit;
    }
    return t;
}

static void write_span(const struct array *a, unsigned long first, unsigned long count, const struct pattern *pattern) {
    unsigned long wide = stripe_sectors(a), end = first + count;
    for (unsigned long stripe = first / wide; stripe * wide < end; stripe++) {
        struct touch t = touch_of(a, stripe, first, end);
        write_stripe(a, stripe, &t, pattern);
    }
}

static void read_span(const struct array *a, unsigned long first, unsigned long count, byte *to) {
    unsigned long wide = stripe_sectors(a), end = first + count;
    for (unsigned long stripe = first / wide; stripe * wide < end; stripe++) {
        struct touch t = touch_of(a, stripe, first, end);
        for (int i = 0; i < a->data; i++) {
            unsigned long block = stripe * wide + (unsigned long)i * a->unit + t.from[i];
            if (t.from[i] < t.to[i]) read_unit(a, stripe, i, t.from[i], t.to[i] - t.from[i], to + (block - first) * SECTOR);
        }
    }
}

/* -- Scripts ------------------------------------------------------------------------------------------------------- */

/* How many bytes, at least one of 1, 2, 4, .., 512, are repeated in a sector. */
static size_t repeated(const byte *sector) {
    size_t length = 1;
    while (length < SECTOR && memcmp(sector, sector + length, SECTOR - length) != 0) length *= 2;
    return length;
}

static void print_blocks(unsigned long first, unsigned long count, const byte *sectors) {
    static const char digits[] = "0123456789abcdef";
    for (unsigned long i = 0, j; i < count; i = j) {
        const byte *sector = sectors + i * SECTOR;
        for (j = i + 1; j < count && memcmp(sector, sectors + j * SECTOR, SECTOR) == 0;) j++;
        printf("block %lu %lu ", first + i, j - i);
        for (size_t k = 0, length = repeated(sector); k < length; k++) {
            putchar_unlocked(digits[sector[k] >> 4]);
            putchar_unlocked(digits[sector[k] & 15]);
        }
        putchar_unlocked('\n');
    }
}

/* One of the refusals that stand before everything else: past the last block, or over too many stripes. */
static int refusal(const struct array *a, unsigned long first, unsigned long count) {
    unsigned long wide = stripe_sectors(a);
    if (first + count > a->stripes * wide) return 1;
    return (first + count - 1) / wide - first / wide + 1 > MOST_STRIPES ? 2 : 0;
}

static int digit(char c) {
    return c >= '0' && c <= '9' ? c - '0' : c >= 'a' && c <= 'f' ? c - 'a' + 10 : c >= 'A' && c <= 'F' ? c - 'A' + 10 : -1;
}

static struct pattern pattern_at(const char *word) {
    struct pattern p = {0, {0}};
    while (*word == ' ') word++;
    while (p.length < MOST_PATTERN && digit(word[0]) >= 0 && digit(word[1]) >= 0) {
        p.bytes[p.length++] = (byte)(digit(word[0]) << 4 | digit(word[1]));
        word += 2;
    }
    if (p.length == 0) stop("a pattern is wanting");
    return p;
}

/* The reply to one line, item `index` of client 0. Whether it has its effect. */
static bool serve(const struct array *a, char *line, unsigned long index) {
    static byte *sectors;
    static unsigned long room;
    if (strncmp(line, "0 write ", 8) != 0 && strncmp(line, "0 read ", 7) != 0) stop("this line isn't served");
    bool writes = line[2] == 'w';
    char *rest = line + (writes ? 8 : 7);
    unsigned long first = strtoul(rest, &rest, 10), count = strtoul(rest, &rest, 10);
    int refused = refusal(a, first, count);
    if (refused) {
        printf("reply 0.%lu refused R%d\n", index, refused);
        return false;
    }
    if (writes) {
        struct pattern pattern = pattern_at(rest);
        write_span(a, first, count, &pattern);
        printf("reply 0.%lu done\n", index);
        return true;
    }
    if (count > room) {
        free(sectors);
        sectors = malloc(count * SECTOR);
        room = count;
        if (!sectors) stop("no memory");
    }
    read_span(a, first, count, sectors);
    printf("reply 0.%lu data\n", index);
    print_blocks(first, count, sectors);
    return true;
}

static int run(const struct array *a) {
    char *line = NULL;
    size_t line_room = 0, index = 0, history_room = 1024;
    bool *took_effect = malloc(history_room);
    while (took_effect && getline(&line, &line_room, stdin) >= 0) {
        if (line[0] == '\n' || line[0] == '#') continue;
        if (index == history_room) took_effect = realloc(took_effect, history_room *= 2);
        if (took_effect) took_effect[index] = serve(a, line, index);
        index++;
    }
    if (!took_effect) stop("no memory");
    settle(a);
    for (size_t i = 0; i < index; i++)
        if (took_effect[i]) printf("commit 0.%zu\n", i);
    free(took_effect);
    free(line);
    return 0;
}

/* -- Parity -------------------------------------------------------------------------------------------------------- */

/* Rows that lie side by side are read in one call for each column. */
static int init(const struct array *a) {
    static byte units[MOST_COLUMNS][CHUNK];
    size_t bytes = (size_t)a->unit * SECTOR;
    unsigned long rows = CHUNK / bytes;
    for (unsigned long low = 0; low < a->stripes; low += rows) {
        unsigned long most = a->stripes - low < rows ? a->stripes - low : rows;
        for (int c = 0; c < a->columns; c++)
            if (pread(a->file[c], units[c], most * bytes, place_of(a, low, 0)) != (ssize_t)(most * bytes)) stop("a read failed");
        for (unsigned long row = 0; row < most; row++) {
            byte *check = units[column_of(a, low + row, a->data)] + row * bytes;
            memset(check, 0, bytes);
            for (int i = 0; i < a->data; i++) sum_into(check, units[column_of(a, low + row, i)] + row * bytes, bytes);
            write_unit(a, low + row, a->data, 0, a->unit, check);
        }
    }
    settle(a);
    printf("parity initialised %lu\n", a->stripes);
    return 0;
}

int main(int count, char **words) {
    static char page[CHUNK];
    struct array a;
    if (count < 5) stop("plain5 run|init UNIT COMPONENT..");
    setvbuf(stdout, page, _IOFBF, sizeof page);
    open_array(&a, (unsigned)strtoul(words[2], NULL, 10), count - 3, words + 3);
    if (strcmp(words[1], "run") == 0) run(&a);
    else if (strcmp(words[1], "init") == 0) init(&a);
    else stop("run or init");
    printf("status ok\n");
    return fflush(stdout) == 0 ? 0 : 7;
}
